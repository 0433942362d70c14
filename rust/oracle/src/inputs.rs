//! Words to compare on: edges, and random ones from a seed.

/// P, 2^64 - 2^32 + 1.
pub const P: u64 = 0xFFFF_FFFF_0000_0001;

/// The words at most 2 from those where a rule turns: 0 and 2^64, 2^16, 2^31, 2^32, 2^33, 2^48, 2^63, (P - 1) / 2 and P.
pub fn edges() -> Vec<u64> {
    let turns = [0, 1 << 16, 1 << 31, 1 << 32, 1 << 33, 1 << 48, 1 << 63, P / 2, P];
    turns
        .iter()
        .flat_map(|turn: &u64| (-2..=2).map(|step| turn.wrapping_add_signed(step)))
        .collect()
}

/// The generator splitmix64: the same words from the same seed.
pub struct Random(u64);

impl Random {
    pub fn from(seed: u64) -> Self {
        Self(seed)
    }

    pub fn word(&mut self) -> u64 {
        self.0 = self.0.wrapping_add(0x9E37_79B9_7F4A_7C15);
        let z = (self.0 ^ self.0 >> 30).wrapping_mul(0xBF58_476D_1CE4_E5B9);
        let z = (z ^ z >> 27).wrapping_mul(0x94D0_49BB_1331_11EB);
        z ^ z >> 31
    }

    /// A number below `bound`.
    pub fn below(&mut self, bound: usize) -> usize {
        (self.word() % bound as u64) as usize
    }

    /// One of these.
    pub fn one_of<T: Copy>(&mut self, items: &[T]) -> T {
        items[self.below(items.len())]
    }
}
