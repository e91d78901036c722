//! Measurements of the new show that lie outside the range of the old one, where no tree has learnt anything.

use crate::units;
use tailboardy::DenseMatrix;

/// The least and the greatest value of a measurement.
#[derive(Debug, Clone, Copy, PartialEq)]
pub struct Range {
    pub least: f64,
    pub greatest: f64,
}

/// A value outside the range: its row and feature, and how far it lies below the range (less than 0) or above it.
#[derive(Debug, Clone, Copy, PartialEq)]
pub struct Outside {
    pub row: usize,
    pub feature: usize,
    pub by: f64,
}

/// A feature that has values outside, and what may explain it: the unit of the new values, and that of the old ones.
#[derive(Debug)]
pub struct Beyond {
    pub feature: usize,
    pub old: Range,
    pub new: Range,
    pub outside: Vec<Outside>,
    pub units: Option<(&'static str, &'static str)>,
    /// Whether the whole column is to be refused.
    pub whole: bool,
}

impl Range {
    fn of(values: impl Iterator<Item = f64>) -> Range {
        let none = Range {
            least: f64::INFINITY,
            greatest: f64::NEG_INFINITY,
        };
        values.fold(none, |range, value| Range {
            least: range.least.min(value),
            greatest: range.greatest.max(value),
        })
    }

    fn has(&self, value: f64) -> bool {
        (self.least..=self.greatest).contains(&value)
    }

    fn width(&self) -> f64 {
        self.greatest - self.least
    }

    /// The greatest of its values, leaving signs aside.
    fn size(&self) -> f64 {
        self.least.abs().max(self.greatest.abs())
    }

    fn by(&self, value: f64) -> f64 {
        value - value.clamp(self.least, self.greatest)
    }
}

fn column(x: &DenseMatrix, feature: usize) -> impl Iterator<Item = f64> {
    let values = x.values().iter().skip(feature);
    values.step_by(x.shape().1).copied()
}

/// The range of each feature over the rows that count. A row with a weight of 0 does not: no tree has seen it.
pub fn ranges(x: &DenseMatrix, weights: &[f64]) -> Vec<Range> {
    let counts = |row: usize| weights.get(row) != Some(&0.0);
    let range = |feature: usize| {
        let values = column(x, feature).enumerate();
        Range::of(values.filter(|(row, _)| counts(*row)).map(|(_, it)| it))
    };
    (0..x.shape().1).map(range).collect()
}

/// The features with values outside the ranges.
pub fn of(ranges: &[Range], x: &DenseMatrix) -> Vec<Beyond> {
    let beyond = |(feature, old): (usize, &Range)| {
        let values: Vec<f64> = column(x, feature).collect();
        let outside = values.iter().enumerate().filter(|(_, it)| !old.has(**it));
        let by = |(row, value): (usize, &f64)| Outside {
            row,
            feature,
            by: old.by(*value),
        };
        let outside: Vec<Outside> = outside.map(by).collect();
        (!outside.is_empty()).then(|| Beyond::new(feature, *old, &values, outside))
    };
    ranges.iter().enumerate().filter_map(beyond).collect()
}

/// A feature whose values all lie inside, but so close together that another unit may be the reason.
#[derive(Debug)]
pub struct Narrow {
    pub feature: usize,
    pub old: Range,
    pub new: Range,
    /// The unit of the new values, and that of the old ones.
    pub units: (&'static str, &'static str),
}

/// The features that may be in a greater unit than those of the old show: offsets from the middle of the stage in metres lie inside those
/// in millimetres. Their range must be at most an eighth as wide, since a house may well be a few times smaller, and lie about 0 in the same way.
pub fn narrow(ranges: &[Range], x: &DenseMatrix) -> Vec<Narrow> {
    let narrow = |(feature, old): (usize, &Range)| {
        let values: Vec<f64> = column(x, feature).collect();
        let new = Range::of(values.iter().copied());
        let inside = old.has(new.least) && old.has(new.greatest);
        let small = 8.0 * new.width() <= old.width() && 8.0 * new.size() <= old.size();
        let alike = new.width() / new.size() * old.size() / old.width();
        let units = || units::guess(&values, old.least, old.greatest);
        let units = (inside && small && (0.5..=2.0).contains(&alike)).then(units);
        units.flatten().map(|units| Narrow {
            feature,
            old: *old,
            new,
            units,
        })
    };
    ranges.iter().enumerate().filter_map(narrow).collect()
}

impl Beyond {
    /// A column is refused as a whole if every value lies outside, or nine in ten do and another unit would explain it: a measurement that
    /// is 0 in the middle of the stage has some values inside in any unit.
    fn new(feature: usize, old: Range, values: &[f64], outside: Vec<Outside>) -> Beyond {
        let (is, all) = (outside.len(), values.len());
        let guess = || units::guess(values, old.least, old.greatest);
        let units = (2 * is > all).then(guess).flatten();
        Beyond {
            feature,
            old,
            new: Range::of(values.iter().copied()),
            whole: is == all || (10 * is >= 9 * all && units.is_some()),
            outside,
            units,
        }
    }
}

#[cfg(test)]
mod tests {
    use super::*;

    fn matrix(rows: &[[f64; 2]]) -> DenseMatrix {
        DenseMatrix::from_2d_array(rows).unwrap()
    }

    #[test]
    fn values_outside_are_found() {
        let old = matrix(&[[5.0, -2.0], [7.0, 2.0], [100.0, 0.0]]);
        let ranges = ranges(&old, &[1.0, 0.5, 0.0]);
        let of = |rows: &[[f64; 2]]| of(&ranges, &matrix(rows));
        assert!(of(&[[5.0, 2.0], [7.0, -2.0]]).is_empty());
        let beyond = of(&[[4.5, 0.0], [6.0, 0.0], [7.25, -3.0]]);
        let outside = |row, feature, by| Outside { row, feature, by };
        assert_eq!(
            beyond[0].outside,
            [outside(0, 0, -0.5), outside(2, 0, 0.25)]
        );
        assert_eq!(beyond[1].outside, [outside(2, 1, -1.0)]);
        assert!(beyond.iter().all(|it| !it.whole && it.units.is_none()));
        assert_eq!(
            (beyond[0].old, beyond[0].new),
            (
                Range {
                    least: 5.0,
                    greatest: 7.0
                },
                Range {
                    least: 4.5,
                    greatest: 7.25
                }
            )
        );
    }

    #[test]
    fn whole_columns_outside_are_found() {
        let ranges = [
            Range {
                least: 5.0,
                greatest: 8.0,
            },
            Range {
                least: -12.0,
                greatest: 12.0,
            },
        ];
        let rows: Vec<[f64; 2]> = (0..10_i32)
            .map(|it| [6000.0 + f64::from(it), 2000.0 * f64::from(it - 5)])
            .collect();
        let beyond = of(&ranges, &matrix(&rows));
        let found = |it: &Beyond| (it.outside.len(), it.whole, it.units);
        let units = Some(("millimetres", "metres"));
        assert_eq!(found(&beyond[0]), (10, true, units));
        assert_eq!(found(&beyond[1]), (9, true, units));
        let beyond = of(&ranges, &matrix(&[[9.0, 0.0]]));
        assert_eq!(found(&beyond[0]), (1, true, None));
        let beyond = of(&ranges, &matrix(&[[6.0, 13.0], [6.0, 14.0], [6.0, 0.0]]));
        assert_eq!(found(&beyond[0]), (2, false, None));
    }

    #[test]
    fn narrow_columns_are_found() {
        let old = matrix(&[[-12_000.0, -6.0], [3_000.0, 0.0], [11_000.0, 5.0]]);
        let ranges = ranges(&old, &[]);
        let found = |rows: &[[f64; 2]]| -> Vec<_> {
            let narrow = narrow(&ranges, &matrix(rows)).into_iter();
            narrow.map(|it| (it.feature, it.units)).collect()
        };
        assert_eq!(
            found(&[[-9.0, -0.1], [2.0, 0.02], [10.0, 0.08]]),
            [(0, ("metres", "millimetres")), (1, ("radians", "degrees"))]
        );
        let smaller_house = [[-3_000.0, 0.0], [500.0, 0.0], [2_500.0, 0.0]];
        assert_eq!(found(&smaller_house), []);
        let one_side = [[9.0, 0.4], [9.5, 0.41], [10.0, 0.42]];
        assert_eq!(found(&one_side), []);
    }
}
