//! Random numbers that follow from a seed.

/// A generator by the name of xoshiro256++.
pub struct Random {
    state: [u64; 4],
}

impl Random {
    /// Begins the numbers of a seed and of a use; two uses of one seed have nothing to do with one another.
    pub fn new(seed: u64, purpose: &str) -> Random {
        // The state is filled by a hash (FNV-1a) of seed, purpose and place, and then mixed.
        let state = [0u8, 1, 2, 3].map(|place| {
            let bytes = seed.to_le_bytes().into_iter().chain(purpose.bytes()).chain([place]);
            bytes.fold(0xcbf2_9ce4_8422_2325, |hash: u64, byte| (hash ^ u64::from(byte)).wrapping_mul(0x0100_0000_01b3))
        });
        let mut random = Random { state };
        (0..32).for_each(|_| _ = random.next());
        random
    }

    fn next(&mut self) -> u64 {
        let [a, b, c, d] = &mut self.state;
        let number = a.wrapping_add(*d).rotate_left(23).wrapping_add(*a);
        let shifted = *b << 17;
        *c ^= *a;
        *d ^= *b;
        *b ^= *c;
        *a ^= *d;
        *c ^= shifted;
        *d = d.rotate_left(45);
        number
    }

    /// Gives a number below `most`, which isn't 0.
    pub fn below(&mut self, most: usize) -> usize {
        ((u128::from(self.next()) * most as u128) >> 64) as usize
    }

    /// Tells true in so many of 10,000 cases.
    pub fn happens(&mut self, share: u32) -> bool {
        self.below(10_000) < share as usize
    }

    /// Gives a place in a list of weights, each as often as it weighs.
    pub fn pick(&mut self, weights: &[u32]) -> usize {
        let mut left = self.below(weights.iter().map(|weight| *weight as usize).sum());
        weights
            .iter()
            .position(|weight| {
                let is_here = left < *weight as usize;
                left = left.wrapping_sub(*weight as usize);
                is_here
            })
            .unwrap_or(0)
    }
}

#[cfg(test)]
mod tests {
    use super::*;

    #[test]
    fn a_place_comes_as_often_as_it_weighs() {
        let mut random = Random::new(1, "test");
        let weights = [60, 0, 30, 10];
        let mut counts = [0i32; 4];
        (0..100_000).for_each(|_| counts[random.pick(&weights)] += 1);
        for (count, weight) in counts.iter().zip(weights) {
            assert!((count - weight as i32 * 1000).abs() < 1000, "{counts:?}");
        }
    }

    #[test]
    fn numbers_follow_from_seed_and_purpose() {
        let first = |seed, purpose| Random::new(seed, purpose).next();
        assert_eq!(first(1, "market"), first(1, "market"));
        assert_ne!(first(1, "market"), first(2, "market"));
        assert_ne!(first(1, "market"), first(1, "feeds"));
    }
}
