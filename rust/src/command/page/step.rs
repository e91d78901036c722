//! Round steps: 1, 2 or 5, times a power of ten.

use crate::page::round::rounded;

/// A step, by its digit and its power of ten, so that its multiples are written without the noise of floats.
#[derive(Debug, Clone, Copy, PartialEq)]
pub struct Step {
    digit: i128,
    power: i32,
}

impl Step {
    /// The smallest round step that is at least as large as a positive number, or the largest that is a float.
    pub fn at_least(size: f64) -> Self {
        let power = size.log10().floor() as i32;
        let steps = [(1, power), (2, power), (5, power), (1, power + 1)];
        let steps = steps.map(|(digit, power)| Step { digit, power });
        let floats = || steps.iter().filter(|step| step.times(1).is_finite());
        // log10 may be a hair off, and so may the quotient that the size is
        let enough = |step: &&Step| step.times(1) >= size * (1.0 - 1e-9);
        *floats()
            .find(enough)
            .or(floats().next_back())
            .unwrap_or(&steps[0])
    }

    /// A multiple of the step.
    pub fn times(self, number: i128) -> f64 {
        let text = format!("{}e{}", number * self.digit, self.power);
        text.parse().unwrap_or(f64::NAN)
    }

    /// How many steps a number is from zero; not a whole number if it lies between two.
    pub fn steps(self, number: f64) -> f64 {
        number / self.times(1)
    }

    /// A multiple of the step in writing, with as many decimals or digits as tell it from the next one.
    pub fn label(self, number: i128) -> String {
        let value = self.times(number);
        let digits = (number * self.digit).unsigned_abs().to_string().len();
        match self.power {
            -6..0 if value.abs() < 1e7 => format!("{value:.*}", self.power.unsigned_abs() as usize),
            _ => rounded(value, digits),
        }
    }
}

#[cfg(test)]
mod tests {
    use super::*;

    #[test]
    fn steps_are_round() {
        for (size, step) in [
            (0.03, 0.05),
            (1.0, 1.0),
            (1.1, 2.0),
            (2.5, 5.0),
            (7.0, 10.0),
            (0.2, 0.2),
            (1000.0, 1000.0),
            (3e299, 5e299),
            (f64::MAX, 1e308),
            (3e-320, 5e-320),
        ] {
            assert_eq!(Step::at_least(size).times(1), step, "{size}");
        }
    }

    #[test]
    fn multiples_are_written_without_noise() {
        let step = Step::at_least(0.1);
        assert_eq!([-3, 0, 3].map(|it| step.label(it)), ["-0.3", "0.0", "0.3"]);
        let large = Step::at_least(5e299);
        assert_eq!(
            [1, 2, 3].map(|it| large.label(it)),
            ["5e299", "1e300", "1.5e300"]
        );
        assert_eq!(Step::at_least(200.0).label(6), "1200");
        assert_eq!(Step::at_least(2e-9).label(3), "6e-9");
        assert_eq!(
            Step::at_least(0.2).label(5_000_000_000_001),
            "1.0000000000002e12"
        );
    }
}
