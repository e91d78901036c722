//! Floats that are difficult for growth: ties, zeros of both signs, subnormals, neighbouring floats, sums that overflow.

use crate::make::chance::Chance;

const EDGES: [f64; 16] = [
    0.0, -0.0, 1.0, -1.0, 2.0, 0.5, 1.7e308, -1.7e308, 5e-324, -5e-324, 2.3e-308, 1e300, -1e300,
    3.0, 1e-300, 10.0,
];

/// NaNs of both signs, quiet and signalling, with the smallest and the largest payloads.
const NANS: [u64; 8] = [
    0x7FF8_0000_0000_0000,
    0xFFF8_0000_0000_0000,
    0x7FF0_0000_0000_0001,
    0xFFF0_0000_0000_0001,
    0x7FF7_FFFF_FFFF_FFFF,
    0xFFF7_FFFF_FFFF_FFFF,
    0x7FFF_FFFF_FFFF_FFFF,
    0xFFFF_FFFF_FFFF_FFFF,
];

/// `steps` floats up from `from`.
fn up(from: f64, steps: usize) -> f64 {
    (0..steps).fold(from, |f, _| f.next_up())
}

fn any_finite(chance: &mut Chance) -> f64 {
    loop {
        let f = f64::from_bits(chance.word());
        if f.is_finite() {
            return f;
        }
    }
}

/// A list of finite floats of one kind.
pub fn finite(chance: &mut Chance, n: usize) -> Vec<f64> {
    let kind = chance.below(16);
    let base = chance.pick(&[0.0, 1.0, -1.0, 1e300, -5e-324, 4.5e15, 2.2e-308, -1e-320]);
    let span = chance.within(1, 6);
    let one = |chance: &mut Chance| match kind {
        0..=3 => chance.below(span + 1) as f64,
        4 | 5 => chance.unit() * 20.0 - 10.0,
        6 => chance.pick(&[0.0, -0.0, 0.0, -0.0, 1.0, -1.0, 5e-324, -5e-324]),
        7 => up(base, chance.below(4)),
        8 => chance.pick(&[
            1.7e308,
            -1.7e308,
            f64::MAX,
            f64::MIN,
            1e308,
            -1e308,
            0.0,
            1.0,
        ]),
        9 => any_finite(chance),
        10 => f64::from_bits(chance.word() & 0xF) * chance.pick(&[1.0, -1.0]),
        11 => base,
        12 => chance.pick(&[1.0, 2.0]) * 2f64.powi(chance.within(0, 1000) as i32 - 500),
        13 => chance.pick(&[0.1, 0.2, 0.3, 0.7, 1.1, -0.1, 1e16, 1.0, 3.3]),
        _ => chance.pick(&EDGES),
    };
    (0..n).map(|_| one(chance)).collect()
}

/// Weights: none at all (an empty list), or a list with zeros, tiny and huge numbers.
pub fn weights(chance: &mut Chance, n: usize) -> Vec<f64> {
    let kind = chance.below(12);
    let one = |chance: &mut Chance| match kind {
        0 => 1.0,
        1 => chance.within(1, 3) as f64,
        2 => chance.pick(&[0.0, -0.0, 1.0, 2.0]),
        3 => chance.pick(&[5e-324, 1e-310, 1e-300, 1.0, 0.0]),
        4 => chance.pick(&[f64::MAX, 1e308, 1e300, 1.0, 0.0]),
        5 => chance.unit() * 3.0,
        6 => chance.pick(&[0.0, -0.0]),
        7 => chance.pick(&[0.1, 0.3, 1e-16, 1e16, 0.0, 0.7]),
        8 => chance.pick(&[f64::MAX, 5e-324, 1.0, 0.0, -0.0, 1e-300, 1e300, 0.5]),
        9 => any_finite(chance).abs(),
        10 => 0.5,
        _ => chance.pick(&[0.0, 1.0]),
    };
    (0..n).map(|_| one(chance)).collect()
}

/// Any NaN: a mean of 0/0 has another sign on another processor.
pub fn nan(chance: &mut Chance) -> f64 {
    f64::from_bits(chance.pick(&NANS))
}

/// Any pattern: one in three is a NaN, of either sign, quiet or signalling, with any payload; another one in three is an infinity, a zero,
/// the smallest or the largest subnormal, or one of those next to them.
pub fn pattern(chance: &mut Chance) -> u64 {
    let sign = chance.word() & 1 << 63;
    let infinity = f64::INFINITY.to_bits();
    let payload = (chance.word() >> 12).max(1) & chance.pick(&[u64::MAX, 0xFF]);
    match chance.below(6) {
        0 => chance.pick(&NANS),
        1 => sign | infinity | payload.max(1),
        2 => sign | chance.pick(&[0, 1, 2, infinity, infinity - 1]),
        3 => sign | chance.pick(&[(1 << 52) - 1, 1 << 52, 1.5f64.to_bits()]),
        _ => chance.word(),
    }
}

/// Floats that a reader may be given: any bits, including NaN and the infinities.
pub fn anything(chance: &mut Chance, n: usize) -> Vec<f64> {
    let mut list = finite(chance, n);
    for f in list.iter_mut() {
        if chance.one_in(6) {
            *f = chance.pick(&[f64::NAN, f64::INFINITY, f64::NEG_INFINITY, -f64::NAN, -0.0]);
        }
    }
    list
}
