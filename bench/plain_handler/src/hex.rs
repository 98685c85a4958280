//! Hexadecimal digits to bytes.

/// The value of a byte that is no digit.
const NO_DIGIT: u8 = 0xff;

/// The values of the digits.
static VALUES: [u8; 256] = {
    let mut table = [NO_DIGIT; 256];
    let mut value = 0;
    while value < 16 {
        table[b"0123456789abcdef"[value] as usize] = value as u8;
        table[b"0123456789ABCDEF"[value] as usize] = value as u8;
        value += 1;
    }
    table
};

/// How many bytes are read of a text past its first byte that is no digit, and written past the bytes it spells.
pub const SLACK: usize = 64;

/// Decodes a whole field of digits, if it has only digits and an even number of them.
pub fn decode_field(field: &[u8], bytes: &mut Vec<u8>) -> bool {
    let start = bytes.len();
    for pair in field.chunks(2) {
        match *pair {
            [high, low] if VALUES[high as usize] != NO_DIGIT && VALUES[low as usize] != NO_DIGIT => {
                bytes.push(VALUES[high as usize] << 4 | VALUES[low as usize]);
            }
            _ => {
                bytes.truncate(start);
                return false;
            }
        }
    }
    true
}

/// Decodes digits up to the first byte that is none, or up to at least `most` digits, and tells how many there were.
/// Of an odd number the last digit may have been left out of the bytes.
///
/// # Safety
/// Within the readable text stands a byte that is no digit, or `most` digits; `SLACK` bytes are readable after it.
/// `most / 2 + SLACK` bytes are writable. Where `WIDE`, the processor has 256-bit vectors.
#[inline(always)]
pub unsafe fn decode<const WIDE: bool>(text: *const u8, bytes: *mut u8, most: usize) -> usize {
    #[cfg(target_arch = "x86_64")]
    if WIDE {
        return unsafe { wide::decode(text, bytes, most) };
    }
    unsafe { decode_by_table(text, bytes, most) }
}

unsafe fn decode_by_table(text: *const u8, bytes: *mut u8, most: usize) -> usize {
    let mut at = 0;
    while at < most {
        unsafe {
            let high = VALUES[*text.add(at) as usize];
            if high == NO_DIGIT {
                return at;
            }
            let low = VALUES[*text.add(at + 1) as usize];
            if low == NO_DIGIT {
                return at + 1;
            }
            *bytes.add(at / 2) = high << 4 | low;
        }
        at += 2;
    }
    at
}

#[cfg(target_arch = "x86_64")]
mod wide {
    use std::arch::x86_64::*;

    /// Gives the values of 32 digits, and more than 15 for what is no digit.
    #[target_feature(enable = "avx2")]
    #[inline]
    fn values_of(text: __m256i) -> __m256i {
        // Digits go to 0xf6 to 0xff, all others below; then digits to 0 to 9 and all others above 15.
        let digits = _mm256_add_epi8(text, _mm256_set1_epi8(0xc6_u8 as i8));
        let digits = _mm256_subs_epu8(digits, _mm256_set1_epi8(6));
        let digits = _mm256_sub_epi8(digits, _mm256_set1_epi8(0xf0_u8 as i8));
        // Letters of both cases go to 10 to 15, all others above.
        let letters = _mm256_and_si256(text, _mm256_set1_epi8(0xdf_u8 as i8));
        let letters = _mm256_sub_epi8(letters, _mm256_set1_epi8(b'A' as i8));
        let letters = _mm256_adds_epu8(letters, _mm256_set1_epi8(10));
        _mm256_min_epu8(digits, letters)
    }

    /// Tells where values are more than 15, a bit each.
    #[target_feature(enable = "avx2")]
    #[inline]
    fn no_digits(values: __m256i) -> u32 {
        _mm256_movemask_epi8(_mm256_adds_epu8(values, _mm256_set1_epi8(112))) as u32
    }

    /// As `super::decode`, 64 digits at a time.
    #[target_feature(enable = "avx2")]
    #[inline]
    pub unsafe fn decode(text: *const u8, bytes: *mut u8, most: usize) -> usize {
        // A pair's first digit counts sixteen.
        let weights = _mm256_set1_epi16(0x0110);
        let mut at = 0;
        loop {
            unsafe {
                let first = values_of(_mm256_loadu_si256(text.add(at).cast()));
                let second = values_of(_mm256_loadu_si256(text.add(at + 32).cast()));
                let pairs =
                    _mm256_packus_epi16(_mm256_maddubs_epi16(first, weights), _mm256_maddubs_epi16(second, weights));
                let in_order = _mm256_permute4x64_epi64(pairs, 0b11_01_10_00);
                _mm256_storeu_si256(bytes.add(at / 2).cast(), in_order);
                if no_digits(_mm256_or_si256(first, second)) != 0 {
                    let bad = u64::from(no_digits(second)) << 32 | u64::from(no_digits(first));
                    return at + bad.trailing_zeros() as usize;
                }
            }
            at += 64;
            if at >= most {
                return at;
            }
        }
    }
}

#[cfg(test)]
mod tests {
    use super::*;

    /// Decodes in the way of `WIDE`, with slack on both sides.
    fn decoded<const WIDE: bool>(text: &[u8]) -> (usize, Vec<u8>) {
        let most = text.len().max(2);
        let mut padded = text.to_vec();
        padded.resize(text.len() + 2 * SLACK, b'\n');
        let mut bytes = vec![0xee; most / 2 + 2 * SLACK];
        let count = unsafe { decode::<WIDE>(padded.as_ptr(), bytes.as_mut_ptr(), most) };
        bytes.truncate(count / 2);
        (count, bytes)
    }

    fn both_ways(text: &[u8]) -> Vec<(usize, Vec<u8>)> {
        let mut answers = vec![decoded::<false>(text)];
        #[cfg(target_arch = "x86_64")]
        if crate::processor::is_wide() {
            answers.push(decoded::<true>(text));
        }
        answers
    }

    /// Gives the plain answer, by the standard library.
    fn plain(text: &[u8]) -> (usize, Vec<u8>) {
        let count = text.iter().take_while(|byte| byte.is_ascii_hexdigit()).count();
        let value = |digit: u8| (digit as char).to_digit(16).unwrap() as u8;
        (count, text[..count].chunks_exact(2).map(|pair| value(pair[0]) << 4 | value(pair[1])).collect())
    }

    #[test]
    fn each_byte_is_a_digit_or_none_at_each_place() {
        for length in [1, 2, 31, 32, 33, 63, 64, 65, 127, 128, 129, 200] {
            let digits: Vec<u8> = (0..length).map(|place| b"0123456789abcdefABCDEF"[place * 7 % 22]).collect();
            for place in [0, 1, length / 2, length - 1] {
                for byte in 0..=255 {
                    let mut text = digits.clone();
                    text[place.min(length - 1)] = byte;
                    for answer in both_ways(&text) {
                        assert_eq!(answer, plain(&text), "{length} digits, byte {byte} at {place}");
                    }
                }
            }
        }
    }

    #[test]
    fn a_field_is_decoded_where_all_of_it_is_digits() {
        for (text, wanted) in [("", true), ("0", false), ("0a", true), ("0A1", false), ("0g", false), ("fF00", true)] {
            let mut bytes = vec![9];
            assert_eq!(decode_field(text.as_bytes(), &mut bytes), wanted, "{text}");
            assert_eq!(bytes.len(), if wanted { 1 + text.len() / 2 } else { 1 });
        }
    }
}
