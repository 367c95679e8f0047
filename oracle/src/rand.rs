//! Stand-in for the parts of the `rand` package that the carried-over text names.

use std::ops::Range;

/// A source of random words.
pub trait RngCore {
    fn next_u32(&mut self) -> u32;
    fn next_u64(&mut self) -> u64;
    fn fill_bytes(&mut self, dest: &mut [u8]);
}

/// What a grid asks of a source.
pub trait Rng: RngCore {
    /// Only `Grid::Uniform` asks for it, which is left behind.
    fn random_range(&mut self, _range: Range<usize>) -> usize {
        unimplemented!("whole-numbered axes are left behind")
    }
}

impl<R: RngCore + ?Sized> Rng for R {}

/// A source that can be made from a seed.
pub trait SeedableRng {
    type Seed;
    fn from_seed(seed: Self::Seed) -> Self;
    fn seed_from_u64(seed: u64) -> Self;
}
