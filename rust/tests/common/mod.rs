//! What several files of tests and the benchmarks use.

// Each benchmark is compiled with its own copy of this module and does not use all of it.
#![allow(dead_code)]

#[path = "../../src/c.rs"]
mod c;
pub mod calls;
pub mod forge;
pub mod heads;
pub mod lists;
pub mod neighbours;
pub mod paths;
pub mod repository;
pub mod sets;
pub mod values;
pub mod writes;

// The module `c` takes it from here, as it does from the crate.
use mijdegen::Head;

/// A xorshift generator of 64 bits. A fixed seed gives the same cases in every run.
pub struct Random(u64);

impl Random {
    /// Starts from the seed, which must not be 0.
    pub fn new(seed: u64) -> Random {
        assert_ne!(seed, 0);
        // The product spreads a small seed over all bits. It is not 0, since the factor is odd.
        Random(seed.wrapping_mul(0x9e37_79b9_7f4a_7c15))
    }

    /// Gives the next 64 bits.
    pub fn next(&mut self) -> u64 {
        self.0 ^= self.0 << 13;
        self.0 ^= self.0 >> 7;
        self.0 ^= self.0 << 17;
        self.0
    }

    /// Gives a number less than the limit.
    pub fn below(&mut self, limit: usize) -> usize {
        // The high bits, since the low bits of a xorshift are the weaker ones.
        ((self.next() >> 16) % limit as u64) as usize
    }

    /// Gives one of the items.
    pub fn one_of<'a, T>(&mut self, items: &'a [T]) -> &'a T {
        &items[self.below(items.len())]
    }

    /// Puts the items into another order.
    pub fn shuffle<T>(&mut self, items: &mut [T]) {
        for last in (1..items.len()).rev() {
            items.swap(self.below(last + 1), last);
        }
    }

    /// Gives this many bytes.
    pub fn bytes(&mut self, length: usize) -> Vec<u8> {
        let mut bytes = Vec::with_capacity(length + 8);
        while bytes.len() < length {
            bytes.extend_from_slice(&self.next().to_le_bytes());
        }
        bytes.truncate(length);
        bytes
    }
}

/// Writes bytes as lowercase hexadecimal digits.
pub fn hexadecimal(bytes: &[u8]) -> String {
    bytes.iter().map(|byte| format!("{byte:02x}")).collect()
}
