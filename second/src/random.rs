//! A small generator of random numbers that is determined by its seed.

/// The splitmix64 generator.
#[derive(Clone, Debug)]
pub struct Random(u64);

impl Random {
    /// The generator that starts from this seed.
    pub fn seeded(seed: u64) -> Random {
        Random(seed)
    }

    /// The next 64 random bits.
    pub fn bits(&mut self) -> u64 {
        self.0 = self.0.wrapping_add(0x9E37_79B9_7F4A_7C15);
        let mut mixed = self.0;
        mixed = (mixed ^ (mixed >> 30)).wrapping_mul(0xBF58_476D_1CE4_E5B9);
        mixed = (mixed ^ (mixed >> 27)).wrapping_mul(0x94D0_49BB_1331_11EB);
        mixed ^ (mixed >> 31)
    }

    /// A byte of any value.
    pub fn byte(&mut self) -> u8 {
        self.bits() as u8
    }

    /// A number below `bound`, which is not 0.
    pub fn below(&mut self, bound: u32) -> u32 {
        let high = self.bits() >> 32;
        ((high * u64::from(bound)) >> 32) as u32
    }

    /// A number from `first` to `last`, both included.
    pub fn between(&mut self, first: u8, last: u8) -> u8 {
        first + self.below(u32::from(last - first) + 1) as u8
    }

    /// True that many times in a thousand.
    pub fn chance(&mut self, in_thousand: u32) -> bool {
        self.below(1000) < in_thousand
    }

    /// One of the items, of which there is at least one.
    pub fn pick<T: Copy>(&mut self, items: &[T]) -> T {
        items[self.below(items.len() as u32) as usize]
    }

    /// So many different ones of the items, or all if there are not so many.
    pub fn some<T>(&mut self, items: impl Iterator<Item = T>, how_many: usize) -> Vec<T> {
        let mut items: Vec<T> = items.collect();
        for place in 0..how_many.min(items.len()) {
            let left = items.len() - place;
            items.swap(place, place + self.below(left as u32) as usize);
        }
        items.truncate(how_many);
        items
    }
}

#[cfg(test)]
mod tests {
    use super::*;

    #[test]
    fn the_first_bits_are_those_of_splitmix64() {
        let mut random = Random::seeded(1_234_567);
        assert_eq!(random.bits(), 6_457_827_717_110_365_317);
        assert_eq!(random.bits(), 3_203_168_211_198_807_973);
    }

    #[test]
    fn numbers_keep_their_bounds_and_reach_them() {
        let mut random = Random::seeded(1);
        let drawn: Vec<u8> = (0..1000).map(|_| random.between(12, 15)).collect();
        assert_eq!(drawn.iter().min(), Some(&12));
        assert_eq!(drawn.iter().max(), Some(&15));
    }

    #[test]
    fn some_are_different_ones() {
        let mut random = Random::seeded(2);
        let mut numbers = random.some(0..8, 8);
        numbers.sort();
        assert_eq!(numbers, [0, 1, 2, 3, 4, 5, 6, 7]);
        assert_eq!(random.some(0..64, 3).len(), 3);
    }
}
