//! A small xorshift generator with a fixed seed.

pub struct Dice(u64);

impl Dice {
    /// The seed must not be 0.
    pub fn new(seed: u64) -> Dice {
        Dice(seed)
    }

    fn next(&mut self) -> u64 {
        self.0 ^= self.0 << 13;
        self.0 ^= self.0 >> 7;
        self.0 ^= self.0 << 17;
        self.0
    }

    /// A number from 0 up to, not including, `count`.
    pub fn below(&mut self, count: usize) -> usize {
        ((self.next() >> 16) % count as u64) as usize
    }

    /// As `below`, for a field of one byte.
    pub fn byte_below(&mut self, count: usize) -> u8 {
        self.below(count) as u8
    }

    pub fn byte(&mut self) -> u8 {
        self.byte_below(256)
    }

    /// A number of four bytes, often small, often huge.
    pub fn number(&mut self) -> u32 {
        let number = (self.next() >> 16) as u32;
        match self.below(4) {
            0 => number % 8,
            1 => u32::MAX - number % 8,
            _ => number,
        }
    }

    /// A number of four bytes to be added to another such: the sum is often at the top of four
    /// bytes, or next to it.
    pub fn operand(&mut self) -> u32 {
        match self.below(4) {
            0 => self.number(),
            _ => self.pick(&[0, 1, 2, (1 << 31) - 1, 1 << 31, u32::MAX]),
        }
    }

    pub fn pick<T: Copy>(&mut self, from: &[T]) -> T {
        from[self.below(from.len())]
    }
}
