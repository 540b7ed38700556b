//! PCG generators.

use crate::rand_core::SeedableRng;
use crate::rand_core::utils::NextWord;

const MULTIPLIER: u128 = 0x2360_ED05_1FC6_5DA4_4385_DF64_9FCC_F645;

/// PCG XSL RR 128/64 (LCG): 128 bits of state, and words of 64 bits.
pub struct Lcg128Xsl64 {
    state: u128,
    increment: u128,
}

impl Lcg128Xsl64 {
    #[inline]
    fn step(&mut self) {
        self.state = self
            .state
            .wrapping_mul(MULTIPLIER)
            .wrapping_add(self.increment);
    }
}

impl SeedableRng for Lcg128Xsl64 {
    /// The first half of the seed is the state, and the second the increment, whose lowest bit is set.
    fn from_seed(seed: [u8; 32]) -> Self {
        let [low, high] = [0, 16].map(|at| {
            let mut half = [0; 16];
            half.copy_from_slice(&seed[at..at + 16]);
            u128::from_le_bytes(half)
        });
        let increment = high | 1;
        let mut generator = Lcg128Xsl64 {
            state: low.wrapping_add(increment),
            increment,
        };
        generator.step();
        generator
    }
}

impl NextWord<u64> for Lcg128Xsl64 {
    #[inline]
    fn next_word(&mut self) -> u64 {
        self.step();
        let folded = ((self.state >> 64) as u64) ^ (self.state as u64);
        folded.rotate_right((self.state >> 122) as u32)
    }
}
