//! Generators of random words.

/// How the words of a generator are made of the one before.
pub mod utils {
    pub trait NextWord<W> {
        fn next_word(&mut self) -> W;
    }
}

/// A generator that is made from a seed.
pub trait SeedableRng: Sized {
    fn from_seed(seed: [u8; 32]) -> Self;

    /// The generator of the seed that PCG32 expands from a number.
    fn seed_from_u64(number: u64) -> Self {
        let mut seed = [0; 32];
        let mut state = number;
        for bytes in seed.chunks_exact_mut(4) {
            state = state
                .wrapping_mul(6_364_136_223_846_793_005)
                .wrapping_add(11_634_580_027_462_260_723);
            let shifted = (((state >> 18) ^ state) >> 27) as u32;
            let word = shifted.rotate_right((state >> 59) as u32);
            bytes.copy_from_slice(&word.to_le_bytes());
        }
        Self::from_seed(seed)
    }
}
