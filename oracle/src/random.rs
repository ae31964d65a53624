//! The one source of pseudo-random numbers of the lists: SplitMix64.

/// A SplitMix64 stream. The same start gives the same numbers everywhere.
pub struct Random(u64);

impl Random {
    /// The stream of one list: the seed number mixed with the list's name.
    pub fn of(seed: u64, list: &str) -> Self {
        let mut state = seed;
        for byte in list.bytes() {
            state = state.wrapping_mul(0x100_0000_01B3) ^ u64::from(byte);
        }
        Random(state)
    }

    pub fn word64(&mut self) -> u64 {
        self.0 = self.0.wrapping_add(0x9E37_79B9_7F4A_7C15);
        let mut z = self.0;
        z = (z ^ (z >> 30)).wrapping_mul(0xBF58_476D_1CE4_E5B9);
        z = (z ^ (z >> 27)).wrapping_mul(0x94D0_49BB_1331_11EB);
        z ^ (z >> 31)
    }

    pub fn word(&mut self) -> u32 {
        (self.word64() >> 32) as u32
    }

    /// A number from 0 up to and without `limit`.
    pub fn below(&mut self, limit: usize) -> usize {
        (self.word64() % limit as u64) as usize
    }

    /// A number from `low` up to and with `high`.
    pub fn between(&mut self, low: i64, high: i64) -> i64 {
        low + (self.word64() % (high - low + 1) as u64) as i64
    }

    /// True once in `one_in` times.
    pub fn once_in(&mut self, one_in: usize) -> bool {
        self.below(one_in) == 0
    }

    pub fn byte(&mut self) -> u8 {
        (self.word64() >> 56) as u8
    }

    /// A float from 0 up to and without 1, on a grid of 2^-24.
    pub fn unit(&mut self) -> f32 {
        (self.word() >> 8) as f32 / 16_777_216.0
    }

    pub fn pick<T: Copy>(&mut self, from: &[T]) -> T {
        from[self.below(from.len())]
    }
}
