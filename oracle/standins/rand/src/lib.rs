//! tailboardy: a stand-in for `rand`. Where smartcore would draw, this takes the next draw from a tape
//! or, if there is no tape, makes a draw and records it, so that it can be used again.

mod draws;
pub mod tape;

pub use draws::{Drawn, Sampled};

/// A source of draws, with the methods that the copied files need.
pub trait Rng {
    /// Puts the next order into `places`.
    fn order(&mut self, places: &mut [usize]);
    /// The next threshold in a range.
    fn threshold(&mut self, low: f64, high: f64) -> f64;
    /// A number below `n`; only smartcore's own bagging calls this.
    fn below(&mut self, n: usize) -> usize;
    /// A number in [0, 1); only smartcore's own bagging calls this.
    fn unit(&mut self) -> f64;
}

pub trait SeedableRng: Sized {
    fn seed_from_u64(seed: u64) -> Self;
}

/// The methods that `rand` adds to every source.
pub trait RngExt: Rng {
    fn random_range<T: Drawn>(&mut self, range: std::ops::Range<T>) -> T {
        T::between(self, range)
    }
    fn random<T: Sampled>(&mut self) -> T {
        T::sampled(self)
    }
    fn sample<T>(&mut self, from: &impl distr::Distribution<T>) -> T {
        from.sample(self)
    }
}

impl<R: Rng + ?Sized> RngExt for R {}

pub mod seq {
    /// Feature numbers are the only thing that the copied files shuffle.
    pub trait SliceRandom {
        fn shuffle<R: super::Rng + ?Sized>(&mut self, rng: &mut R);
    }

    impl SliceRandom for [usize] {
        fn shuffle<R: super::Rng + ?Sized>(&mut self, rng: &mut R) {
            rng.order(self);
        }
    }
}

pub mod rngs {
    pub use super::tape::SmallRng;
}

pub mod distr {
    pub trait Distribution<T> {
        fn sample<R: super::Rng + ?Sized>(&self, rng: &mut R) -> T;
    }

    pub mod weighted {
        pub use crate::draws::{WeightedError, WeightedIndex};
    }
}
