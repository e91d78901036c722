//! smartcore 0.7.0's trees and forests, as published, with a harness inside.
//! Every file under this directory that README.md does not list as added is an unchanged copy.
//! tailboardy: this file takes the place of smartcore's own `lib.rs` and `mod.rs` files.

#[allow(dead_code)]
mod api;
#[allow(dead_code)]
#[rustfmt::skip]
mod error;
pub mod harness;
#[allow(dead_code)]
#[rustfmt::skip]
mod rand_custom;
pub mod ready;

#[allow(dead_code)]
mod linalg {
    pub mod basic {
        #[rustfmt::skip]
        pub mod arrays;
        pub mod lent;
        mod vector;
    }
}

#[allow(dead_code)]
mod numbers {
    #[rustfmt::skip]
    pub mod basenum;
    #[rustfmt::skip]
    pub mod floatnum;
    pub mod realnum;
}

mod tree {
    /// `include!` instead of `mod`, so that the module `window` inside has access to the private fields.
    #[allow(dead_code, private_bounds, clippy::all)]
    pub mod base_tree {
        include!("tree/base_tree.rs");
        pub mod window;
    }
    #[allow(dead_code)]
    #[rustfmt::skip]
    pub mod criterion;
    #[allow(dead_code, clippy::all)]
    #[rustfmt::skip]
    pub mod decision_tree_regressor;
}

mod ensemble {
    #[allow(dead_code, private_bounds, clippy::all)]
    pub mod base_forest {
        include!("ensemble/base_forest.rs");
        pub mod window;
    }
}
