//! Runs both sides in turn, and measures the time that they take.

use crate::input::{Input, Size};
use crate::memory;
use crate::ours::Rooms;
use copy::harness::Grown;
use copy::ready::{Ready, Rows};

/// The seconds of each round.
#[derive(Default)]
pub struct Times {
    rust_fit: Vec<f64>,
    rust_again: Vec<f64>,
    rust_means: Vec<f64>,
    fit: Vec<f64>,
    again: Vec<f64>,
    means: Vec<f64>,
}

/// The times of both sides for one task.
pub struct Pair<'a> {
    pub rust: &'a [f64],
    pub ours: &'a [f64],
}

pub fn median(times: &[f64]) -> f64 {
    let mut sorted = times.to_vec();
    sorted.sort_by(f64::total_cmp);
    let half = sorted.len() / 2;
    match sorted.len() % 2 {
        1 => sorted[half],
        _ => (sorted[half - 1] + sorted[half]) / 2.0,
    }
}

pub fn minimum(times: &[f64]) -> f64 {
    times.iter().copied().fold(f64::INFINITY, f64::min)
}

impl Pair<'_> {
    pub fn of_medians(&self) -> f64 {
        median(self.ours) / median(self.rust)
    }

    pub fn of_minima(&self) -> f64 {
        minimum(self.ours) / minimum(self.rust)
    }

    /// The least and the greatest ratio within a round.
    pub fn spread(&self) -> (f64, f64) {
        let ratios = self.ours.iter().zip(self.rust).map(|(o, r)| o / r);
        ratios.fold((f64::INFINITY, 0.0), |(low, high), ratio| {
            (low.min(ratio), high.max(ratio))
        })
    }
}

impl Times {
    pub fn fits(&self) -> Pair<'_> {
        Pair {
            rust: &self.rust_fit,
            ours: &self.fit,
        }
    }

    pub fn fits_again(&self) -> Pair<'_> {
        Pair {
            rust: &self.rust_again,
            ours: &self.again,
        }
    }

    pub fn predictions(&self) -> Pair<'_> {
        Pair {
            rust: &self.rust_means,
            ours: &self.means,
        }
    }
}

#[repr(C)]
#[derive(Default)]
struct Timespec {
    seconds: i64,
    nanoseconds: i64,
}

unsafe extern "C" {
    fn clock_gettime(clock: i32, time: *mut Timespec) -> i32;
}

/// Linux's number for the clock of this thread's own processor time, including the system's work for it.
const THREAD: i32 = 3;

fn now() -> f64 {
    let mut time = Timespec::default();
    let failed = unsafe { clock_gettime(THREAD, &mut time) };
    assert_eq!(failed, 0, "no clock");
    time.seconds as f64 + time.nanoseconds as f64 * 1e-9
}

fn timed<T>(times: &mut Vec<f64>, work: impl FnOnce() -> T) -> T {
    let start = now();
    let made = work();
    times.push(now() - start);
    made
}

/// Our side of a round: a fit including its rooms, the means of the new rows, and the same fit again in the same rooms.
fn ours(input: &Input, times: &mut Times) -> (Rooms, Vec<f64>) {
    let mut refused = 0;
    memory::fresh();
    let mut rooms = timed(&mut times.fit, || {
        let mut rooms = Rooms::new(input);
        refused += rooms.fit(input);
        rooms
    });
    let means = timed(&mut times.means, || {
        let mut means = vec![0.0; input.size.rows];
        refused += rooms.means(input, &mut means);
        means
    });
    refused += timed(&mut times.again, || rooms.fit(input));
    assert_eq!(refused, 0, "good input was refused");
    (rooms, means)
}

/// smartcore's side: the same, and again with the memory that an earlier fit left.
fn rusts(input: &Input, ready: &Ready, fresh: &Rows, times: &mut Times) -> (Vec<Grown>, Vec<f64>) {
    let params = input.size.params();
    memory::fresh();
    ready.lay(&input.tapes);
    let forest = timed(&mut times.rust_fit, || ready.fit(&params, 0));
    let means = timed(&mut times.rust_means, || forest.means(fresh));
    let trees = forest.into_trees();
    memory::kept();
    ready.lay(&input.tapes);
    drop(ready.fit(&params, 0));
    ready.lay(&input.tapes);
    drop(timed(&mut times.rust_again, || ready.fit(&params, 0)));
    (trees, means)
}

/// The times for a size, or `None` if the two sides differ in a single bit.
pub fn rounds(size: Size, count: usize) -> Option<Times> {
    let input = Input::new(size);
    let ready = input.ready();
    let fresh = Rows::new(size.rows, size.features, &input.fresh);
    let mut times = Times::default();
    for round in 0..count {
        let first = (round % 2 == 1).then(|| ours(&input, &mut times));
        let (trees, means) = rusts(&input, &ready, &fresh, &mut times);
        let (rooms, out) = first.unwrap_or_else(|| ours(&input, &mut times));
        let mut both = means.iter().zip(&out);
        if !rooms.same(&trees) || !both.all(|(a, b)| a.to_bits() == b.to_bits()) {
            return None;
        }
    }
    Some(times)
}

/// Only our side, for a profiler.
pub fn alone(size: Size, count: usize) {
    let input = Input::new(size);
    for _ in 0..count {
        ours(&input, &mut Times::default());
    }
}
