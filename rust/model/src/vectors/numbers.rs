//! Numbers that look like any others, the same at every call.
use crate::bits::Put;
use crate::random::Random;

/// A sequence of numbers. Each line has one of its own, so that no line depends on another.
pub struct Numbers(Random);

impl Numbers {
    pub fn new(seed: usize) -> Self {
        Numbers(Random::new(seed as u64))
    }

    pub fn any(&mut self) -> u64 {
        self.0.any()
    }

    /// A field of that many bits: any number, the largest, a single bit, or zero. Neighbours that differ in
    /// every bit show a reader that takes a bit from the next field.
    pub fn field(&mut self, width: usize) -> u64 {
        match self.any() % 8 {
            0 | 1 => self.any() & largest(width),
            2 => largest(width),
            3..=5 => 1 << (self.any() % width as u64),
            _ => 0,
        }
    }

    pub fn fields(&mut self, count: usize, width: usize) -> Vec<u64> {
        (0..count).map(|_| self.field(width)).collect()
    }

    pub fn bytes(&mut self, count: usize) -> Vec<u8> {
        (0..count).map(|_| self.any() as u8).collect()
    }
}

/// The largest number of that many bits.
pub fn largest(width: usize) -> u64 {
    ((1u128 << width) - 1) as u64
}

/// The shortest varint.
pub fn varint(number: u64) -> Vec<u8> {
    let mut put = Put::default();
    put.varint(number);
    put.bytes()
}
