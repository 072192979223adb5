//! Numbers by chance, the same ones for the same seed and number.

/// Numbers at which something ends: limits, halves and wholes of a word.
const EDGES: [u64; 30] = [
    0, 1, 2, 3, 4, 31, 32, 33, 63, 64, 65, 127, 128, 255, 256, 257, 4_095, 4_096, 4_097, 9_999, 10_000, 10_001, 20_000, 20_001, 30_000,
    32_767, 32_768, 65_535, 65_536, 0x7fff_ffff,
];

pub struct Chance(u64);

impl Chance {
    pub fn new(seed: u64, number: u64) -> Chance {
        Chance(seed.wrapping_mul(0x9e37_79b9_7f4a_7c15) ^ number.wrapping_mul(0xd134_2543_de82_ef95))
    }

    /// The next number (splitmix64).
    pub fn next(&mut self) -> u64 {
        self.0 = self.0.wrapping_add(0x9e37_79b9_7f4a_7c15);
        let mixed = (self.0 ^ (self.0 >> 30)).wrapping_mul(0xbf58_476d_1ce4_e5b9);
        let mixed = (mixed ^ (mixed >> 27)).wrapping_mul(0x94d0_49bb_1331_11eb);
        mixed ^ (mixed >> 31)
    }

    pub fn below(&mut self, end: usize) -> usize {
        (self.next() % end as u64) as usize
    }

    /// True once in so many times.
    pub fn once_in(&mut self, times: usize) -> bool {
        self.below(times) == 0
    }

    pub fn pick<T: Copy>(&mut self, values: &[T]) -> T {
        values[self.below(values.len())]
    }

    /// An edge, a small number, all ones or anything.
    pub fn count(&mut self) -> u32 {
        match self.below(8) {
            0 => u32::MAX,
            1 => u32::MAX - self.below(4) as u32,
            2 => self.next() as u32,
            3 => self.below(20) as u32,
            _ => self.pick(&EDGES) as u32,
        }
    }

    /// A word: anything, or parts of 16 or 32 bits that are edges.
    pub fn word(&mut self) -> u64 {
        match self.below(6) {
            0 => self.next(),
            1 => u64::MAX,
            2 => 0,
            3 => u64::from(self.count()) << 32 | u64::from(self.count()),
            4 => (0..4).fold(0, |word, _| word << 16 | self.pick(&EDGES) & 0xffff),
            _ => 1 << self.below(64),
        }
    }

    pub fn bytes(&mut self, length: usize) -> Vec<u8> {
        (0..length).map(|_| self.next() as u8).collect()
    }
}
