//! Texts that are compared 64 bytes at a time.

/// Tells whether two texts of a length are the same.
///
/// # Safety
/// Both are readable over this length. Where `WIDE`, the processor has 256-bit vectors.
#[inline(always)]
pub unsafe fn are_same<const WIDE: bool>(one: *const u8, other: *const u8, length: usize) -> bool {
    #[cfg(target_arch = "x86_64")]
    if WIDE && length >= 64 {
        return unsafe { are_same_wide(one, other, length) };
    }
    unsafe { std::slice::from_raw_parts(one, length) == std::slice::from_raw_parts(other, length) }
}

/// As `are_same`, of at least 64 bytes.
#[cfg(target_arch = "x86_64")]
#[target_feature(enable = "avx2")]
#[inline]
unsafe fn are_same_wide(one: *const u8, other: *const u8, length: usize) -> bool {
    use std::arch::x86_64::*;

    let differ = |at: usize| unsafe {
        let (one, other) = (one.add(at).cast::<__m256i>(), other.add(at).cast::<__m256i>());
        let first = _mm256_cmpeq_epi8(_mm256_loadu_si256(one), _mm256_loadu_si256(other));
        let second = _mm256_cmpeq_epi8(_mm256_loadu_si256(one.add(1)), _mm256_loadu_si256(other.add(1)));
        _mm256_movemask_epi8(_mm256_and_si256(first, second)) != -1
    };
    let mut at = 0;
    while at + 64 < length {
        if differ(at) {
            return false;
        }
        at += 64;
    }
    // The last 64 bytes may have been compared in part before.
    !differ(length - 64)
}

#[cfg(test)]
mod tests {
    use super::*;

    #[test]
    fn texts_are_the_same_where_no_byte_differs() {
        let text: Vec<u8> = (0..=255).cycle().take(400).collect();
        for length in [0, 1, 63, 64, 65, 128, 129, 320, 400] {
            for changed in (0..400).step_by(13) {
                let mut other = text.clone();
                other[changed] ^= 1;
                let wanted = changed >= length;
                assert_eq!(unsafe { are_same::<false>(text.as_ptr(), other.as_ptr(), length) }, wanted);
                #[cfg(target_arch = "x86_64")]
                if crate::processor::is_wide() {
                    assert_eq!(unsafe { are_same::<true>(text.as_ptr(), other.as_ptr(), length) }, wanted);
                }
            }
        }
    }
}
