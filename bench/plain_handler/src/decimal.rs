//! Decimal numbers, put in place four digits at a time.
//!
//! Each function writes some bytes more than it puts, and gives the place after what it put. What stands after that
//! place is nobody's.

/// The digits of 0 to 9999, four each.
static FOUR_DIGITS: [[u8; 4]; 10_000] = {
    let mut table = [[0; 4]; 10_000];
    let mut number = 0;
    while number < 10_000 {
        let digits = [number / 1000, number / 100 % 10, number / 10 % 10, number % 10];
        let mut place = 0;
        while place < 4 {
            table[number][place] = b'0' + digits[place] as u8;
            place += 1;
        }
        number += 1;
    }
    table
};

/// The most bytes that a number takes, with what is written after it.
pub const ROOM: usize = 28;

/// Puts a number below 10,000 as four digits.
///
/// # Safety
/// The number is below 10,000, and four bytes are writable at `to`.
#[inline(always)]
unsafe fn put_four(to: *mut u8, number: u32) -> *mut u8 {
    unsafe {
        let digits = *FOUR_DIGITS.get_unchecked(number as usize);
        to.cast::<[u8; 4]>().write_unaligned(digits);
        to.add(4)
    }
}

/// Puts a number below 10,000 without leading zeros.
///
/// # Safety
/// As `put_four`.
#[inline(always)]
unsafe fn put_up_to_four(to: *mut u8, number: u32) -> *mut u8 {
    unsafe {
        let digits = u32::from_le_bytes(*FOUR_DIGITS.get_unchecked(number as usize));
        // The first digit that isn't zero, the last one at most.
        let zeros = ((digits & 0x0f0f_0f0f) | 1 << 24).trailing_zeros() / 8;
        let shifted = digits >> (8 * zeros);
        to.cast::<[u8; 4]>().write_unaligned(shifted.to_le_bytes());
        to.add(4 - zeros as usize)
    }
}

/// Puts a number below 10^8 as eight digits.
///
/// # Safety
/// The number is below 10^8, and eight bytes are writable at `to`.
#[inline(always)]
unsafe fn put_eight(to: *mut u8, number: u32) -> *mut u8 {
    unsafe { put_four(put_four(to, number / 10_000), number % 10_000) }
}

/// Puts a number below 10^8 without leading zeros.
///
/// # Safety
/// As `put_eight`.
#[inline(always)]
unsafe fn put_up_to_eight(to: *mut u8, number: u32) -> *mut u8 {
    unsafe {
        if number < 10_000 {
            put_up_to_four(to, number)
        } else {
            put_four(put_up_to_four(to, number / 10_000), number % 10_000)
        }
    }
}

/// Puts a number without leading zeros.
///
/// # Safety
/// `ROOM` bytes are writable at `to`.
#[inline(always)]
pub unsafe fn put_number(to: *mut u8, number: u64) -> *mut u8 {
    const EIGHT: u64 = 100_000_000;
    unsafe {
        if number < EIGHT {
            put_up_to_eight(to, number as u32)
        } else if number < EIGHT * EIGHT {
            put_eight(put_up_to_eight(to, (number / EIGHT) as u32), (number % EIGHT) as u32)
        } else {
            put_long(to, number)
        }
    }
}

/// Puts a number of more than sixteen digits.
#[cold]
#[inline(never)]
unsafe fn put_long(to: *mut u8, number: u64) -> *mut u8 {
    const SIXTEEN: u64 = 10_000_000_000_000_000;
    unsafe {
        let to = put_up_to_eight(to, (number / SIXTEEN) as u32);
        let to = put_eight(to, (number / 100_000_000 % 100_000_000) as u32);
        put_eight(to, (number % 100_000_000) as u32)
    }
}

/// Puts a number with `-` before a negative one.
///
/// # Safety
/// `ROOM` bytes are writable at `to`.
#[inline(always)]
pub unsafe fn put_signed(to: *mut u8, number: i64) -> *mut u8 {
    unsafe {
        *to = b'-';
        put_number(to.add((number < 0) as usize), number.unsigned_abs())
    }
}

#[cfg(test)]
mod tests {
    use super::*;

    fn text(put: impl FnOnce(*mut u8) -> *mut u8) -> String {
        let mut bytes = [b'#'; ROOM];
        let start = bytes.as_mut_ptr();
        let length = unsafe { put(start).offset_from(start) } as usize;
        String::from_utf8(bytes[..length].to_vec()).unwrap()
    }

    /// Gives numbers around each power of ten and of two.
    fn edges() -> impl Iterator<Item = u64> {
        let tens = (0..20).map(|power| 10u64.pow(power));
        let twos = (0..64).map(|power| 1u64 << power);
        tens.chain(twos).flat_map(|edge| [edge.wrapping_sub(1), edge, edge + 1]).chain([u64::MAX])
    }

    #[test]
    fn numbers_are_those_of_the_standard_library() {
        for number in edges().chain(0..20_000) {
            assert_eq!(text(|to| unsafe { put_number(to, number) }), number.to_string());
        }
    }

    #[test]
    fn signed_numbers_are_those_of_the_standard_library() {
        for number in edges().map(|number| number as i64) {
            for number in [number, number.wrapping_neg()] {
                assert_eq!(text(|to| unsafe { put_signed(to, number) }), number.to_string());
            }
        }
    }
}
