//! Corrections in a few classes between round numbers. Each class has a tint, a size and a sign, so that colour is never alone in telling.

use crate::page::round::rounded;
use crate::page::step::Step;

/// The number of tints on each side of zero.
const TINTS: i128 = 4;

/// The classes that some numbers fall into, in ascending order.
#[derive(Debug)]
pub struct Scale {
    /// What is between the classes, and the multiple of it at which the first one begins. Numbers that are all equal have one class.
    step: Option<(Step, i128)>,
    pub classes: Vec<Class>,
}

/// A class: whether its numbers are negative, its tint from 1 to 4, and what it is called in a legend.
#[derive(Debug, Clone, PartialEq)]
pub struct Class {
    pub negative: bool,
    pub tint: i128,
    pub label: String,
}

impl Scale {
    /// Classes for the numbers. If there are numbers on both sides of zero, the tint tells how far from zero they are, otherwise how
    /// far along their range.
    pub fn over(numbers: impl Iterator<Item = f64> + Clone) -> Self {
        let low = numbers.clone().fold(f64::INFINITY, f64::min);
        let high = numbers.fold(f64::NEG_INFINITY, f64::max);
        let both = low < 0.0 && high > 0.0;
        let sizes = [4.0, 3.0, 2.0, 1.0].map(|parts| match both {
            true => high.max(-low) / parts,
            false => high / parts - low / parts,
        });
        let scales = sizes
            .into_iter()
            .filter(|size| *size > 0.0 && size.is_finite());
        let mut scales = scales.map(|size| Scale::by(Step::at_least(size), low, high, both));
        let good = |scale: &Scale| scale.classes.iter().all(|class| class.tint <= TINTS);
        scales.find(good).unwrap_or_else(|| Scale::equal(high))
    }

    fn equal(number: f64) -> Self {
        let class = Class {
            negative: number < 0.0,
            tint: 2,
            label: with_plus(number, rounded(number, 3)),
        };
        Scale {
            step: None,
            classes: vec![class],
        }
    }

    /// Classes between the multiples of a step. There may be more of them than there are tints.
    fn by(step: Step, low: f64, high: f64, both: bool) -> Self {
        let first = begin(step, low);
        // a number at the end of the last class belongs to it
        let end = begin(step, high) + i128::from(step.times(begin(step, high)) < high);
        let end = end.max(first + 1);
        let most = if both { end.max(-first) } else { end - first };
        let class = |from: i128| {
            let negative = from < 0;
            let level = match (both, negative) {
                (true, true) => -from,
                (true, false) => from + 1,
                (false, true) => end - from,
                (false, false) => from - first + 1,
            };
            let [from, to] = [from, from + 1].map(|it| with_plus(it as f64, step.label(it)));
            Class {
                negative,
                tint: if most <= TINTS {
                    (level * TINTS + most - 1) / most
                } else {
                    most
                },
                label: format!("{from} to {to}"),
            }
        };
        Scale {
            step: Some((step, first)),
            classes: (first..end).map(class).collect(),
        }
    }

    /// The class of a number.
    pub fn class_of(&self, number: f64) -> &Class {
        let class = self
            .step
            .map_or(0, |(step, first)| begin(step, number) - first);
        let last = self.classes.len() - 1;
        &self.classes[usize::try_from(class).unwrap_or(0).min(last)]
    }
}

/// The last multiple of a step that is not above a number. One below zero is never taken for zero, however small it is.
fn begin(step: Step, number: f64) -> i128 {
    let begin = step.steps(number).floor() as i128;
    if number < 0.0 { begin.min(-1) } else { begin }
}

fn with_plus(number: f64, text: String) -> String {
    if number > 0.0 {
        format!("+{text}")
    } else {
        text
    }
}

#[cfg(test)]
mod tests {
    use super::*;

    fn labels(numbers: &[f64]) -> Vec<String> {
        let scale = Scale::over(numbers.iter().copied());
        let class = |it: &Class| {
            let side = if it.negative { "n" } else { "p" };
            format!("{side}{} {}", it.tint, it.label)
        };
        scale.classes.iter().map(class).collect()
    }

    #[test]
    fn zero_is_between_two_classes() {
        assert_eq!(
            labels(&[-1.7, 0.3, 2.6]),
            [
                "n3 -2 to -1",
                "n2 -1 to 0",
                "p2 0 to +1",
                "p3 +1 to +2",
                "p4 +2 to +3"
            ]
        );
        assert_eq!(labels(&[-0.2, 0.1]).len(), 6);
    }

    #[test]
    fn one_side_of_zero_uses_its_tints_for_the_range() {
        assert_eq!(
            labels(&[101.0, 139.0]),
            [
                "p1 +100 to +110",
                "p2 +110 to +120",
                "p3 +120 to +130",
                "p4 +130 to +140"
            ]
        );
        let below = labels(&[-8.0, -1.0]);
        assert_eq!(below.first().map(String::as_str), Some("n4 -8 to -6"));
        assert_eq!(below.last().map(String::as_str), Some("n1 -2 to 0"));
    }

    #[test]
    fn numbers_lie_in_their_classes() {
        let scale = Scale::over([-2.0, 3.0].into_iter());
        for (number, label) in [
            (-2.0, "-2 to -1"),
            (-1e-9, "-1 to 0"),
            (0.0, "0 to +1"),
            (0.999, "0 to +1"),
            (1.0, "+1 to +2"),
            (3.0, "+2 to +3"),
        ] {
            assert_eq!(scale.class_of(number).label, label);
        }
    }

    #[test]
    fn every_range_has_classes() {
        assert_eq!(labels(&[1.25, 1.25]), ["p2 +1.25"]);
        assert_eq!(labels(&[0.0]), ["p2 0"]);
        assert_eq!(labels(&[-1e300]), ["n2 -1e300"]);
        for ends in [
            [-1e300, 1e300],
            [f64::MIN, f64::MAX],
            [0.0, f64::MAX],
            [1e15, 1e15 + 0.125],
            [0.0, 5e-324],
            [-5e-324, 1e300],
            [3.99, 8.01],
        ] {
            let scale = Scale::over(ends.into_iter());
            let classes = scale.classes.len();
            assert!((1..=8).contains(&classes), "{ends:?}: {classes}");
            assert!(scale.classes.iter().all(|it| (1..=4).contains(&it.tint)));
            assert_eq!(
                Some(scale.class_of(ends[0])),
                scale.classes.first(),
                "{ends:?}"
            );
            assert_eq!(
                Some(scale.class_of(ends[1])),
                scale.classes.last(),
                "{ends:?}"
            );
        }
    }
}
