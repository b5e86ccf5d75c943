//! Random numbers from a seed (splitmix64): the same run every time.
use std::cell::Cell;

pub struct Rng(Cell<u64>);

impl Rng {
    pub fn new(seed: u64) -> Rng {
        Rng(Cell::new(seed))
    }

    pub fn next(&self) -> u64 {
        let mut z = self.0.get().wrapping_add(0x9E37_79B9_7F4A_7C15);
        self.0.set(z);
        z = (z ^ (z >> 30)).wrapping_mul(0xBF58_476D_1CE4_E5B9);
        z = (z ^ (z >> 27)).wrapping_mul(0x94D0_49BB_1331_11EB);
        z ^ (z >> 31)
    }

    pub fn word(&self) -> u32 {
        (self.next() >> 32) as u32
    }

    pub fn short(&self) -> u16 {
        self.word() as u16
    }

    /// A number below n, which is not 0.
    pub fn below(&self, n: u32) -> u32 {
        ((u64::from(self.word()) * u64::from(n)) >> 32) as u32
    }

    /// A number from one end to the other, both included.
    pub fn between(&self, low: u32, high: u32) -> u32 {
        low + self.below(high - low + 1)
    }

    pub fn place(&self, len: usize) -> usize {
        self.below(len as u32) as usize
    }

    pub fn one_in(&self, n: u32) -> bool {
        self.below(n) == 0
    }

    pub fn pick<T: Copy>(&self, from: &[T]) -> T {
        from[self.place(from.len())]
    }

    /// A number that is often a special one: small, near a power of two, or at the end of the type.
    pub fn odd_word(&self) -> u32 {
        match self.below(5) {
            0 => self.below(20),
            1 => (1u32 << self.below(32)).wrapping_sub(self.below(3)),
            2 => u32::MAX - self.below(20),
            3 => self.below(5000),
            _ => self.word(),
        }
    }
}
