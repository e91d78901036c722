//! tailboardy: `arrays.rs` uses this trait in methods that growth never calls.

use crate::numbers::basenum::Number;
use num_traits::Float;

pub trait RealNumber: Number + Float {
    fn rand() -> Self;
}
