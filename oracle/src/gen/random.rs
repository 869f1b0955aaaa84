//! The generator's own numbers (splitmix64): the same from the same seed, everywhere.

#[derive(Clone)]
pub struct Random(pub u64);

impl Random {
    pub fn next(&mut self) -> u64 {
        self.0 = self.0.wrapping_add(0x9e37_79b9_7f4a_7c15);
        let mut z = self.0;
        z = (z ^ (z >> 30)).wrapping_mul(0xbf58_476d_1ce4_e5b9);
        z = (z ^ (z >> 27)).wrapping_mul(0x94d0_49bb_1331_11eb);
        z ^ (z >> 31)
    }

    pub fn below(&mut self, n: u32) -> u32 {
        (self.next() >> 32) as u32 % n
    }

    pub fn byte(&mut self) -> u8 {
        (self.next() >> 56) as u8
    }

    pub fn word(&mut self) -> u32 {
        (self.next() >> 32) as u32
    }

    /// True once in `n` times.
    pub fn once_in(&mut self, n: u32) -> bool {
        self.below(n) == 0
    }

    pub fn pick<T: Copy>(&mut self, list: &[T]) -> T {
        list[self.below(list.len() as u32) as usize]
    }

    /// A number below 2^bits, as a byte.
    pub fn bits(&mut self, bits: u32) -> u8 {
        (self.below(1 << bits)) as u8
    }
}

/// Takes an index apart: each `of(n)` gives a number below n, so that all indexes give all combinations.
pub struct Digits(pub usize);

impl Digits {
    pub fn of(&mut self, n: usize) -> usize {
        let digit = self.0 % n;
        self.0 /= n;
        digit
    }

    pub fn byte(&mut self, n: usize) -> u8 {
        self.of(n) as u8
    }

    pub fn from<T: Copy>(&mut self, list: &[T]) -> T {
        list[self.of(list.len())]
    }
}
