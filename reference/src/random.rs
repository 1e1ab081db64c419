//! A small seeded source of numbers, so that a seed names its cases for ever.

/// SplitMix64.
#[derive(Clone, Debug)]
pub struct Random {
    state: u64,
}

/// Numbers where something may change: edges of widths, and the document's own.
const EDGES: [u32; 12] = [
    30,
    100,
    200,
    255,
    256,
    65_535,
    65_536,
    0x7FFF_FFFF,
    0x8000_0000,
    0xFFFF_FFE2,
    0xFFFF_FFFE,
    0xFFFF_FFFF,
];

impl Random {
    pub fn new(seed: u64) -> Self {
        Self { state: seed }
    }

    /// The source of one item of a numbered row: items do not depend on each other.
    pub fn of_item(seed: u64, index: u64) -> Self {
        let mut row = Self::new(seed);
        let start = row.number();
        Self::new(start ^ index.wrapping_mul(0xD134_2543_DE82_EF95))
    }

    pub fn number(&mut self) -> u64 {
        self.state = self.state.wrapping_add(0x9E37_79B9_7F4A_7C15);
        let mut z = self.state;
        z = (z ^ (z >> 30)).wrapping_mul(0xBF58_476D_1CE4_E5B9);
        z = (z ^ (z >> 27)).wrapping_mul(0x94D0_49BB_1331_11EB);
        z ^ (z >> 31)
    }

    /// A number below `limit`; 0 if the limit is 0.
    pub fn below(&mut self, limit: usize) -> usize {
        match limit {
            0 => 0,
            _ => (self.number() % limit as u64) as usize,
        }
    }

    /// A number from `low` to `high`, both included.
    pub fn between(&mut self, low: usize, high: usize) -> usize {
        low + self.below(high - low + 1)
    }

    pub fn one_in(&mut self, n: usize) -> bool {
        self.below(n) == 0
    }

    pub fn pick<T: Copy>(&mut self, from: &[T]) -> T {
        from[self.below(from.len())]
    }

    pub fn byte(&mut self) -> u8 {
        self.number() as u8
    }

    pub fn bytes(&mut self, length: usize) -> Vec<u8> {
        (0..length).map(|_| self.byte()).collect()
    }

    /// A 32-bit number: mostly small, so that keys and ids meet, at times an edge or any.
    pub fn word(&mut self) -> u32 {
        match self.below(10) {
            0..=5 => self.below(5) as u32,
            6..=8 => self.pick(&EDGES),
            _ => self.number() as u32,
        }
    }

    /// A number that differs from `other`.
    pub fn word_unlike(&mut self, other: u32) -> u32 {
        let near = [
            other.wrapping_add(1),
            other.wrapping_sub(1),
            other ^ 0x10000,
        ];
        match self.word() {
            word if word == other => self.pick(&near),
            word if self.one_in(2) => word,
            _ => self.pick(&near),
        }
    }

    pub fn shuffle<T>(&mut self, items: &mut [T]) {
        for last in (1..items.len()).rev() {
            items.swap(last, self.below(last + 1));
        }
    }
}
