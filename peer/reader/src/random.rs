//! A small pseudo-random generator (SplitMix64), so that a seed alone gives the same files again.

#[derive(Clone, Debug)]
pub struct Random {
    state: u64,
}

impl Random {
    pub fn new(seed: u64) -> Random {
        Random { state: seed }
    }

    /// The stream of one file of a run.
    pub fn for_file(seed: u64, index: u64) -> Random {
        let mut first = Random::new(seed ^ 0x5851_F42D_4C95_7F2D);
        let mixed = first.draw() ^ index.wrapping_mul(0xD134_2543_DE82_EF95);
        let mut second = Random::new(mixed);
        Random::new(second.draw())
    }

    pub fn draw(&mut self) -> u64 {
        self.state = self.state.wrapping_add(0x9E37_79B9_7F4A_7C15);
        let mut mixed = self.state;
        mixed = (mixed ^ (mixed >> 30)).wrapping_mul(0xBF58_476D_1CE4_E5B9);
        mixed = (mixed ^ (mixed >> 27)).wrapping_mul(0x94D0_49BB_1331_11EB);
        mixed ^ (mixed >> 31)
    }

    /// A number below the limit; 0 if the limit is 0.
    pub fn below(&mut self, limit: usize) -> usize {
        if limit == 0 {
            0
        } else {
            (self.draw() % limit as u64) as usize
        }
    }

    /// A number from low to high, both included.
    pub fn between(&mut self, low: usize, high: usize) -> usize {
        low + self.below(high - low + 1)
    }

    /// True in so many cases of a hundred.
    pub fn percent(&mut self, cases: u64) -> bool {
        self.draw() % 100 < cases
    }

    pub fn pick<T: Copy>(&mut self, choices: &[T]) -> T {
        choices[self.below(choices.len())]
    }

    pub fn byte(&mut self) -> u8 {
        self.draw() as u8
    }

    pub fn digit(&mut self) -> u8 {
        b'0' + self.below(10) as u8
    }
}
