//! A small random generator (splitmix64): the same seed gives the same inputs on every machine.

pub struct Rng {
    state: u64,
}

impl Rng {
    pub fn new(seed: u64) -> Rng {
        Rng { state: seed }
    }

    /// A generator of its own for one test, so that a test's input does not depend on the tests before it.
    pub fn for_test(seed: u64, family: u64, index: u64) -> Rng {
        let mut rng = Rng::new(seed);
        for part in [family, index] {
            rng.state = rng.next() ^ part;
        }
        rng
    }

    pub fn next(&mut self) -> u64 {
        self.state = self.state.wrapping_add(0x9E37_79B9_7F4A_7C15);
        let mut mixed = self.state;
        mixed = (mixed ^ (mixed >> 30)).wrapping_mul(0xBF58_476D_1CE4_E5B9);
        mixed = (mixed ^ (mixed >> 27)).wrapping_mul(0x94D0_49BB_1331_11EB);
        mixed ^ (mixed >> 31)
    }

    /// A number below the bound, which must not be 0. The slight bias of the remainder does no harm in tests.
    pub fn below(&mut self, bound: u64) -> u64 {
        self.next() % bound
    }

    /// A size from `low` to `high`, both included.
    pub fn between(&mut self, low: usize, high: usize) -> usize {
        low + self.below((high - low + 1) as u64) as usize
    }

    /// True once in `times` on average.
    pub fn once_in(&mut self, times: u64) -> bool {
        self.below(times) == 0
    }

    pub fn byte(&mut self) -> u8 {
        // The high bits are mixed best.
        (self.next() >> 56) as u8
    }

    pub fn bytes(&mut self, size: usize) -> Vec<u8> {
        (0..size).map(|_| self.byte()).collect()
    }

    pub fn pick<T: Copy>(&mut self, choices: &[T]) -> T {
        choices[self.below(choices.len() as u64) as usize]
    }

    pub fn bytes_from(&mut self, choices: &[u8], size: usize) -> Vec<u8> {
        (0..size).map(|_| self.pick(choices)).collect()
    }
}
