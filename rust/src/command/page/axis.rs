//! An axis: the range of numbers along one side of a picture.

use crate::page::step::Step;

/// A range of numbers, from `low` to `high`, which is larger.
#[derive(Debug, Clone, Copy, PartialEq)]
pub struct Axis {
    low: f64,
    high: f64,
}

/// A round number on an axis: its place, in hundredths of the axis, and what is written beside it.
#[derive(Debug, PartialEq)]
pub struct Tick {
    pub place: f64,
    pub label: String,
}

impl Axis {
    /// From the least to the greatest of the numbers, with a margin on both sides.
    pub fn over(numbers: impl Iterator<Item = f64>) -> Self {
        let ends = numbers.fold(None, |ends: Option<(f64, f64)>, number| {
            let (low, high) = ends.unwrap_or((number, number));
            Some((low.min(number), high.max(number)))
        });
        let (low, high) = ends.unwrap_or((0.0, 0.0));
        let range = high / 2.0 - low / 2.0;
        let margin = if range > 0.0 {
            range * 0.12
        } else {
            low.abs() * 0.1
        };
        // nothing is gained by a margin that is lost in rounding
        let margin = if margin > 0.0 { margin } else { 1.0 };
        Axis {
            low: (low - margin).max(f64::MIN),
            high: (high + margin).min(f64::MAX),
        }
    }

    /// The place of a number, in hundredths of the axis. Halves, since the range itself may be too large for a float.
    pub fn place(&self, number: f64) -> f64 {
        let part = (number / 2.0 - self.low / 2.0) / (self.high / 2.0 - self.low / 2.0);
        (part * 100.0).clamp(0.0, 100.0)
    }

    /// The round numbers on it. What is between them is at least the part of the axis that is given, of two or more.
    pub fn ticks(&self, wanted: usize) -> Vec<Tick> {
        let parts = wanted as f64;
        let step = Step::at_least(self.high / parts - self.low / parts);
        let first = step.steps(self.low).ceil() as i128;
        let last = step.steps(self.high).floor() as i128;
        let tick = |number: i128| Tick {
            place: self.place(step.times(number)),
            label: step.label(number),
        };
        (first..=last).take(2 * wanted).map(tick).collect()
    }

    /// As many ticks as there is room for if their labels stand side by side on a phone.
    pub fn ticks_across(&self) -> Vec<Tick> {
        const LETTERS: usize = 40;
        let fits = |ticks: &Vec<Tick>| {
            let letters = ticks.iter().map(|tick| tick.label.len() + 2);
            letters.sum::<usize>() <= LETTERS
        };
        let mut choices = (2..=8).rev().map(|wanted| self.ticks(wanted));
        choices.find(fits).unwrap_or_else(|| self.ticks(2))
    }
}

#[cfg(test)]
mod tests {
    use super::*;

    fn labels(ticks: &[Tick]) -> Vec<&str> {
        ticks.iter().map(|tick| tick.label.as_str()).collect()
    }

    #[test]
    fn ticks_are_round_numbers_within_the_range() {
        let axis = Axis::over([3.2, 7.94, 5.0].into_iter());
        let ticks = axis.ticks(7);
        assert_eq!(labels(&ticks), ["3", "4", "5", "6", "7", "8"]);
        assert!(ticks.windows(2).all(|two| two[0].place < two[1].place));
        assert_eq!(
            labels(&Axis::over([-0.2, 0.2].into_iter()).ticks(4)),
            ["-0.2", "0.0", "0.2"]
        );
    }

    #[test]
    fn every_number_has_a_place() {
        for numbers in [
            vec![],
            vec![0.0],
            vec![-3.5, -3.5],
            vec![5e-324],
            vec![0.0, 5e-324],
            vec![1e300, -1e300],
            vec![f64::MAX, f64::MIN],
            vec![f64::MAX],
            vec![1e15, 1e15 + 0.125],
        ] {
            let axis = Axis::over(numbers.iter().copied());
            for number in &numbers {
                let place = axis.place(*number);
                assert!((0.0..=100.0).contains(&place), "{number} at {place}");
            }
            let ticks = axis.ticks(5);
            assert!((1..=10).contains(&ticks.len()), "{numbers:?}: {ticks:?}");
            assert!(ticks.iter().all(|it| it.place.is_finite()), "{ticks:?}");
        }
    }

    #[test]
    fn long_labels_are_few() {
        let short = Axis::over([0.0, 7.0].into_iter()).ticks_across();
        let long = Axis::over([1e12, 1e12 + 1.0].into_iter()).ticks_across();
        assert!(short.len() > 5, "{short:?}");
        assert!(long.len() <= 3, "{long:?}");
    }
}
