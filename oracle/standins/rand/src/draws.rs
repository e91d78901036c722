//! What can be drawn: numbers below a bound, thresholds of a range, and rows by weight.

use crate::{Rng, distr::Distribution};
use std::fmt;
use std::ops::Range;

pub trait Drawn: Sized {
    fn between<R: Rng + ?Sized>(rng: &mut R, range: Range<Self>) -> Self;
}

impl Drawn for f64 {
    fn between<R: Rng + ?Sized>(rng: &mut R, range: Range<f64>) -> f64 {
        rng.threshold(range.start, range.end)
    }
}

impl Drawn for usize {
    fn between<R: Rng + ?Sized>(rng: &mut R, range: Range<usize>) -> usize {
        range.start + rng.below(range.end - range.start)
    }
}

pub trait Sampled: Sized {
    fn sampled<R: Rng + ?Sized>(rng: &mut R) -> Self;
}

impl Sampled for f64 {
    fn sampled<R: Rng + ?Sized>(rng: &mut R) -> f64 {
        rng.unit()
    }
}

impl Sampled for f32 {
    fn sampled<R: Rng + ?Sized>(rng: &mut R) -> f32 {
        rng.unit() as f32
    }
}

/// Rows by weight; like that of `rand`, it does not accept weights that are all 0.
pub struct WeightedIndex<W> {
    weights: Vec<W>,
    total: W,
}

#[derive(Debug)]
pub struct WeightedError;

impl fmt::Display for WeightedError {
    fn fmt(&self, f: &mut fmt::Formatter<'_>) -> fmt::Result {
        f.write_str("weights with no total above 0")
    }
}

impl WeightedIndex<f64> {
    pub fn new(weights: &[f64]) -> Result<Self, WeightedError> {
        let total: f64 = weights.iter().sum();
        let refused = weights.is_empty() || weights.iter().any(|w| w.is_nan() || *w < 0.0);
        if refused || total <= 0.0 {
            return Err(WeightedError);
        }
        Ok(Self {
            weights: weights.to_vec(),
            total,
        })
    }
}

impl Distribution<usize> for WeightedIndex<f64> {
    fn sample<R: Rng + ?Sized>(&self, rng: &mut R) -> usize {
        let mut left = rng.unit() * self.total;
        for (row, weight) in self.weights.iter().enumerate() {
            if left < *weight {
                return row;
            }
            left -= weight;
        }
        self.weights.len() - 1
    }
}
