//! Random numbers that depend only on their seed (splitmix64).

pub struct Rng {
    state: u64,
}

impl Rng {
    pub fn new(seed: u64) -> Self {
        Rng { state: seed }
    }

    pub fn next(&mut self) -> u64 {
        self.state = self.state.wrapping_add(0x9E37_79B9_7F4A_7C15);
        let mut mixed = self.state;
        mixed = (mixed ^ (mixed >> 30)).wrapping_mul(0xBF58_476D_1CE4_E5B9);
        mixed = (mixed ^ (mixed >> 27)).wrapping_mul(0x94D0_49BB_1331_11EB);
        mixed ^ (mixed >> 31)
    }

    /// A number below `top`, which is not 0. Small numbers are slightly more
    /// likely, which does not matter here.
    pub fn below(&mut self, top: u64) -> u64 {
        self.next() % top
    }

    /// True with probability 1 in `times`.
    pub fn once_in(&mut self, times: u64) -> bool {
        self.below(times) == 0
    }

    pub fn byte(&mut self) -> u8 {
        self.next() as u8
    }

    pub fn bytes(&mut self, len: u64) -> Vec<u8> {
        (0..len).map(|_| self.byte()).collect()
    }

    pub fn pick<T: Copy>(&mut self, choices: &[T]) -> T {
        choices[self.below(choices.len() as u64) as usize]
    }

    /// A number of at most `widest` bits. Every number of bits is equally
    /// likely, so small numbers are common.
    pub fn magnitude(&mut self, widest: u32) -> u64 {
        let width = self.below(u64::from(widest) + 1) as u32;
        if width == 0 {
            return 0;
        }
        self.next() >> (64 - width)
    }
}
