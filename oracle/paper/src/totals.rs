//! Totals of rows, what is computed from them, and where a cut lies.

use crate::calls::CutAt;

#[derive(Clone, Copy, Debug)]
pub struct Totals {
    pub sum: f64,
    pub mass: f64,
}

impl Totals {
    pub fn none() -> Self {
        Totals {
            sum: 0.0,
            mass: 0.0,
        }
    }

    pub fn with(self, target: f64, mass: f64) -> Self {
        Totals {
            sum: self.sum + target * mass,
            mass: self.mass + mass,
        }
    }

    pub fn less(self, side: Totals) -> Self {
        Totals {
            sum: self.sum - side.sum,
            mass: self.mass - side.mass,
        }
    }

    pub fn value(self) -> f64 {
        if self.mass > 0.0 {
            self.sum / self.mass
        } else {
            0.0
        }
    }
}

/// Either mass at most 0; a NaN mass is not.
fn massless(on_true: Totals, on_false: Totals) -> bool {
    on_true.mass <= 0.0 || on_false.mass <= 0.0
}

fn distance(on_true: Totals, on_false: Totals) -> f64 {
    on_true.sum * on_false.mass - on_false.sum * on_true.mass
}

pub fn proxy(on_true: Totals, on_false: Totals) -> f64 {
    if massless(on_true, on_false) {
        return 0.0;
    }
    let d = distance(on_true, on_false);
    d * d / (on_true.mass * on_false.mass)
}

pub fn score(whole: Totals, on_true: Totals, on_false: Totals) -> f64 {
    if massless(on_true, on_false) {
        return 0.0;
    }
    let d = distance(on_true, on_false);
    d * d / (on_true.mass * on_false.mass * whole.mass)
}

/// Halfway from a value to the next one above it, or the value itself if that is not below the next one.
fn midpoint(before: f64, after: f64) -> f64 {
    let mid = before + (after - before) / 2.0;
    if mid < after { mid } else { before }
}

/// The cut between a value and the next one above it: at least the first, and below the second.
pub fn threshold(at: CutAt, before: f64, after: f64) -> f64 {
    match at {
        CutAt::Midpoint => midpoint(before, after),
        CutAt::Lower => before,
    }
}
