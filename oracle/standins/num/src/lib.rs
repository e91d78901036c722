pub use num_traits::*;
