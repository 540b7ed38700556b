//! Lanes of words.

use std::ops::{BitAnd, BitOr, BitXor, Not};

/// Four words.
#[allow(non_camel_case_types)]
#[derive(Clone, Copy, Debug, PartialEq, Eq)]
pub struct u64x4([u64; 4]);

impl u64x4 {
    pub const fn from_array(words: [u64; 4]) -> u64x4 {
        u64x4(words)
    }

    pub const fn splat(word: u64) -> u64x4 {
        u64x4([word; 4])
    }

    pub const fn to_array(self) -> [u64; 4] {
        self.0
    }

    /// The words that a function makes of each two.
    #[inline(always)]
    fn with(self, other: u64x4, made: impl Fn(u64, u64) -> u64) -> u64x4 {
        u64x4(std::array::from_fn(|lane| {
            made(self.0[lane], other.0[lane])
        }))
    }
}

impl BitAnd for u64x4 {
    type Output = u64x4;

    #[inline]
    fn bitand(self, other: u64x4) -> u64x4 {
        self.with(other, |a, b| a & b)
    }
}

impl BitOr for u64x4 {
    type Output = u64x4;

    #[inline]
    fn bitor(self, other: u64x4) -> u64x4 {
        self.with(other, |a, b| a | b)
    }
}

impl BitXor for u64x4 {
    type Output = u64x4;

    #[inline]
    fn bitxor(self, other: u64x4) -> u64x4 {
        self.with(other, |a, b| a ^ b)
    }
}

impl Not for u64x4 {
    type Output = u64x4;

    #[inline]
    fn not(self) -> u64x4 {
        u64x4(self.0.map(|word| !word))
    }
}
