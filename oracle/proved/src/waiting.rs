//! The waiting list as it is passed to the proved library: integers and floats in two slices, of which the shorter decides the length.

use driver::call::outcome::{FILL, FILL_FLOAT};
use paper::Waiting;

const WHOLES: [u32; 6] = [FILL as u32; 6];
const REALS: [f64; 3] = [FILL_FLOAT; 3];

pub struct Stack {
    pub wholes: Vec<[u32; 6]>,
    pub reals: Vec<[f64; 3]>,
}

impl Stack {
    /// Filled with nines and `length` long; in a third of the cases the first slice has one entry more, in another third the second.
    /// An empty list has no entry that could report on a longer slice.
    pub fn new(length: usize, lot: u32) -> Self {
        let more = |third: u32| length + usize::from(length > 0 && lot % 3 == third);
        Stack {
            wholes: vec![WHOLES; more(1)],
            reals: vec![REALS; more(2)],
        }
    }

    /// Reports in one list what was done to both; what is past its end counts with the last entry.
    pub fn told(&self, list: &mut [Waiting]) {
        let last = list.len().saturating_sub(1);
        for (place, entry) in list.iter_mut().enumerate() {
            let end = if place == last { usize::MAX } else { place + 1 };
            let wholes = self.wholes.iter().take(end).skip(place);
            let reals = self.reals.iter().take(end).skip(place);
            let all = |w: [u32; 6], r: [f64; 3]| {
                let bits = |floats: &[f64; 3]| floats.map(f64::to_bits);
                wholes.clone().all(|entry| *entry == w)
                    && reals.clone().all(|entry| bits(entry) == bits(&r))
            };
            if all([0; 6], [0.0; 3]) {
                *entry = Waiting::default();
            } else if !all(WHOLES, REALS) {
                entry.node = 1;
            }
        }
    }
}
