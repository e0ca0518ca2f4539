//! A small generator (xorshift64*), so that every run tries the same inputs.

pub struct Random(u64);

impl Random {
    /// The seed may not be 0.
    pub fn new(seed: u64) -> Random {
        Random(seed)
    }

    fn next(&mut self) -> u64 {
        self.0 ^= self.0 >> 12;
        self.0 ^= self.0 << 25;
        self.0 ^= self.0 >> 27;
        self.0.wrapping_mul(0x2545_F491_4F6C_DD1D)
    }

    pub fn below(&mut self, bound: usize) -> usize {
        (((self.next() >> 32) * bound as u64) >> 32) as usize
    }

    /// Both ends are included.
    pub fn within(&mut self, low: usize, high: usize) -> usize {
        low + self.below(high - low + 1)
    }

    pub fn percent(&mut self, share: usize) -> bool {
        self.below(100) < share
    }

    pub fn pick<T: Copy>(&mut self, from: &[T]) -> T {
        from[self.below(from.len())]
    }

    /// A set of numbers below the width, each with this chance in percent.
    pub fn set(&mut self, width: usize, share: usize) -> u16 {
        (0..width).map(|i| (self.percent(share) as u16) << i).sum()
    }

    pub fn noise<T: Element>(&mut self, length: usize) -> Vec<T> {
        let mut noise = Vec::with_capacity(length + 3);
        while noise.len() < length {
            let bits = self.next();
            noise.extend((0..4).map(|i| T::of_bits(bits >> (16 * i))));
        }
        noise.truncate(length);
        noise
    }
}

/// What a lent buffer holds: numbers or bytes.
pub trait Element: Copy + PartialEq {
    fn of_bits(bits: u64) -> Self;
}

impl Element for u16 {
    fn of_bits(bits: u64) -> u16 {
        bits as u16
    }
}

impl Element for u8 {
    fn of_bits(bits: u64) -> u8 {
        bits as u8
    }
}
