//! The random numbers that cases are drawn from.

/// A sequence of random numbers (splitmix64).
pub struct Draw {
    /// The state that the next number comes from.
    state: u64,
}

impl Draw {
    /// The numbers that belong to one case under a seed.
    pub fn new(seed: u64, number: u64) -> Draw {
        let mut seeds = Draw { state: seed };
        let mut numbers = Draw { state: seeds.next().wrapping_add(number) };
        Draw { state: numbers.next() }
    }

    /// The next number.
    pub fn next(&mut self) -> u64 {
        self.state = self.state.wrapping_add(0x9E37_79B9_7F4A_7C15);
        let mut mixed = self.state;
        mixed = (mixed ^ (mixed >> 30)).wrapping_mul(0xBF58_476D_1CE4_E5B9);
        mixed = (mixed ^ (mixed >> 27)).wrapping_mul(0x94D0_49BB_1331_11EB);
        mixed ^ (mixed >> 31)
    }

    /// A number below a bound that is not 0.
    pub fn below(&mut self, bound: u64) -> u64 {
        self.next() % bound
    }

    /// A place in a list of a length that is not 0.
    pub fn place(&mut self, length: usize) -> usize {
        self.below(length as u64) as usize
    }

    /// Whether one of so many came out.
    pub fn one_in(&mut self, many: u64) -> bool {
        self.below(many) == 0
    }

    /// Any byte.
    pub fn byte(&mut self) -> u8 {
        self.below(256) as u8
    }

    /// So many bytes that hold anything.
    pub fn bytes(&mut self, count: usize) -> Vec<u8> {
        (0..count).map(|_| self.byte()).collect()
    }

    /// One of some things.
    pub fn one_of<T: Clone>(&mut self, things: &[T]) -> T {
        things[self.place(things.len())].clone()
    }
}

#[cfg(test)]
mod tests {
    use super::*;

    /// The same seed and number give the same sequence, others give others, and every number below a bound comes.
    #[test]
    fn sequences() {
        let first = |seed, number| Draw::new(seed, number).bytes(20);
        assert_eq!(first(1, 2), first(1, 2));
        assert_ne!(first(1, 2), first(2, 1));
        assert_ne!(first(1, 2), first(1, 3));
        let mut draw = Draw::new(5, 5);
        let mut came = [0; 7];
        (0..700).for_each(|_| came[draw.place(7)] += 1);
        assert!(came.iter().all(|count| *count > 50));
    }
}
