//! The generator's own chance: SplitMix64 over a seed and an index.

pub struct Dice {
    state: u64,
}

impl Dice {
    pub fn new(seed: u64, index: u64) -> Dice {
        let mut dice = Dice { state: seed };
        let mixed = dice.word();
        dice.state = mixed ^ index.wrapping_mul(0xd1b5_4a32_d192_ed03);
        dice.word();
        dice
    }

    pub fn word(&mut self) -> u64 {
        self.state = self.state.wrapping_add(0x9e37_79b9_7f4a_7c15);
        let mut z = self.state;
        z = (z ^ (z >> 30)).wrapping_mul(0xbf58_476d_1ce4_e5b9);
        z = (z ^ (z >> 27)).wrapping_mul(0x94d0_49bb_1331_11eb);
        z ^ (z >> 31)
    }

    /// A whole number below n.
    pub fn below(&mut self, n: usize) -> usize {
        (self.word() % n as u64) as usize
    }

    /// A whole number from low to high, both included.
    pub fn between(&mut self, low: usize, high: usize) -> usize {
        low + self.below(high - low + 1)
    }

    /// True once in `of / times` rolls.
    pub fn chance(&mut self, times: usize, of: usize) -> bool {
        self.below(of) < times
    }

    pub fn pick<T: Copy>(&mut self, of: &[T]) -> T {
        of[self.below(of.len())]
    }

    /// A number in [0, 1).
    pub fn unit(&mut self) -> f64 {
        crate::domains::float::unit(self.word())
    }

    /// A number of either sign whose exponent lies in the given range.
    pub fn magnitude(&mut self, low: i32, high: i32) -> f64 {
        let exponent = low + self.below((high - low + 1) as usize) as i32;
        let value = (1.0 + self.unit()) * 2f64.powi(exponent);
        if self.chance(1, 2) { value } else { -value }
    }
}
