//! Tapes: each new source uses the first tape that is waiting; if there is none, it makes its own draws.
//! What a source did is recorded when it is dropped, in the order in which sources are dropped.

use crate::{Rng, SeedableRng};
use std::cell::RefCell;
use std::collections::VecDeque;

/// The draws of one tree: orders one after another, and thresholds.
#[derive(Clone, Debug, Default, PartialEq)]
pub struct Tape {
    pub words: Vec<u32>,
    pub thresholds: Vec<f64>,
}

/// What a source did.
#[derive(Clone, Debug, Default)]
pub struct Told {
    /// The draws that it made; empty if they came from a tape.
    pub made: Tape,
    /// Numbers below a bound, and rows by weight, which only smartcore's own bagging draws.
    pub bag: Vec<usize>,
    pub searches: usize,
    pub words_used: usize,
    pub thresholds_used: usize,
    /// The search of the first draw that is missing or out of range.
    pub bad_draw: Option<usize>,
}

/// A waiting tape, and whether its orders are known to be valid.
struct Laid {
    tape: Tape,
    good: bool,
}

thread_local! {
    static READY: RefCell<VecDeque<Laid>> = const { RefCell::new(VecDeque::new()) };
    static TOLD: RefCell<Vec<Told>> = const { RefCell::new(Vec::new()) };
}

/// Forgets waiting tapes and records, which a judge that panicked may have left.
pub fn clear() {
    READY.with(|ready| ready.borrow_mut().clear());
    TOLD.with(|told| told.borrow_mut().clear());
}

/// Adds a tape for the next source.
pub fn lay(tape: Tape) {
    put(Laid { tape, good: false });
}

/// The same for a tape that was made here: its orders are not checked again, so that using it takes no longer than drawing it.
pub fn lay_good(tape: Tape) {
    put(Laid { tape, good: true });
}

fn put(laid: Laid) {
    READY.with(|ready| ready.borrow_mut().push_back(laid));
}

/// What the dropped sources did since the last call.
pub fn told() -> Vec<Told> {
    TOLD.with(|told| std::mem::take(&mut *told.borrow_mut()))
}

/// The source that the copied files create by its name.
pub struct SmallRng {
    laid: Option<Laid>,
    state: u64,
    told: Told,
}

impl SeedableRng for SmallRng {
    fn seed_from_u64(seed: u64) -> Self {
        SmallRng {
            laid: READY.with(|ready| ready.borrow_mut().pop_front()),
            state: seed,
            told: Told::default(),
        }
    }
}

impl Drop for SmallRng {
    fn drop(&mut self) {
        let told = std::mem::take(&mut self.told);
        TOLD.with(|all| all.borrow_mut().push(told));
    }
}

impl SmallRng {
    // SplitMix64; any generator would do here, because every draw is recorded
    fn next(&mut self) -> u64 {
        self.state = self.state.wrapping_add(0x9E37_79B9_7F4A_7C15);
        let mut z = self.state;
        z = (z ^ (z >> 30)).wrapping_mul(0xBF58_476D_1CE4_E5B9);
        z = (z ^ (z >> 27)).wrapping_mul(0x94D0_49BB_1331_11EB);
        z ^ (z >> 31)
    }

    // growth continues with a harmless draw; the harness reports the first bad one
    fn bad(&mut self) {
        let search = self.told.searches - 1;
        self.told.bad_draw.get_or_insert(search);
    }

    fn make_order(&mut self, places: &mut [usize]) {
        for i in (1..places.len()).rev() {
            let j = (self.next() % (i as u64 + 1)) as usize;
            places.swap(i, j);
        }
        self.told
            .made
            .words
            .extend(places.iter().map(|&p| p as u32));
    }

    // both ends of the range, and the other zero, as often as a point between them
    fn make_threshold(&mut self, low: f64, high: f64) -> f64 {
        let drawn = match self.next() % 8 {
            0 => low,
            1 => high.next_down(),
            2 if low == 0.0 => -low,
            _ => low + (high - low) * self.unit(),
        };
        let kept = if low <= drawn && drawn < high {
            drawn
        } else {
            low
        };
        self.told.made.thresholds.push(kept);
        kept
    }
}

fn permutation(words: &[u32]) -> bool {
    let mut met = vec![false; words.len()];
    words
        .iter()
        .all(|&w| (w as usize) < words.len() && !std::mem::replace(&mut met[w as usize], true))
}

impl Rng for SmallRng {
    fn order(&mut self, places: &mut [usize]) {
        let from = self.told.words_used;
        let to = from + places.len();
        self.told.searches += 1;
        self.told.words_used = to;
        let Some(laid) = &self.laid else {
            return self.make_order(places);
        };
        match laid.tape.words.get(from..to) {
            Some(words) if laid.good || permutation(words) => {
                for (place, word) in places.iter_mut().zip(words) {
                    *place = *word as usize;
                }
            }
            _ => self.bad(),
        }
    }

    fn threshold(&mut self, low: f64, high: f64) -> f64 {
        let at = self.told.thresholds_used;
        self.told.thresholds_used += 1;
        let Some(laid) = &self.laid else {
            return self.make_threshold(low, high);
        };
        match laid.tape.thresholds.get(at) {
            Some(&t) if low <= t && t < high => t,
            _ => {
                self.bad();
                low
            }
        }
    }

    fn below(&mut self, n: usize) -> usize {
        let drawn = (self.next() % n as u64) as usize;
        self.told.bag.push(drawn);
        drawn
    }

    fn unit(&mut self) -> f64 {
        (self.next() >> 11) as f64 / (1u64 << 53) as f64
    }
}
