//! What the programs that measure share.

/// Gives the value below which a share of sorted values lies, of 1,000; nothing of no value.
pub fn at_share<T: Copy>(sorted: &[T], share: usize) -> Option<T> {
    let place = (sorted.len() * share).div_ceil(1000).clamp(1, sorted.len().max(1)) - 1;
    sorted.get(place).copied()
}

#[cfg(test)]
mod tests {
    use super::*;

    #[test]
    fn shares_of_sorted_values() {
        let values: Vec<u32> = (1..=100).collect();
        assert_eq!(at_share(&values, 0), Some(1));
        assert_eq!(at_share(&values, 500), Some(50));
        assert_eq!(at_share(&values, 990), Some(99));
        assert_eq!(at_share(&values, 1000), Some(100));
        assert_eq!(at_share(&[7], 500), Some(7));
        assert_eq!(at_share::<u8>(&[], 500), None);
    }
}
