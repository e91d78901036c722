//! Counts: how many times each row is in each tree's bag.

use crate::fault::Fault;
use crate::refusal::{Cause, Refusal};
use crate::seed::SplitMix64;
use crate::sizes;
use std::ops::Range;

/// How many times each row is in each tree's bag, tree after tree. A row with count 0 is left out of that tree.
///
/// [`drawn`](Counts::drawn) makes counts from a seed, in plain Rust, outside the proved core. A fit accepts any counts up to 65,535.
///
/// ```
/// use tailboardy::Counts;
///
/// let bags = Counts::drawn(100, 80, 7)?;
/// assert_eq!(bags.shape(), (100, 80));
/// assert_eq!(bags.of_tree(3).iter().sum::<u32>(), 80);
/// # Ok::<(), tailboardy::Refusal>(())
/// ```
#[derive(Debug, Clone, PartialEq, Eq)]
pub struct Counts {
    trees: usize,
    rows: usize,
    numbers: Vec<u32>,
}

impl Counts {
    /// Takes the counts tree after tree.
    ///
    /// ```
    /// use tailboardy::Counts;
    ///
    /// let counts = Counts::new(2, 3, vec![1, 0, 2, 1, 1, 1])?;
    /// assert_eq!(counts.of_tree(0), [1, 0, 2]);
    /// assert_eq!(Counts::new(2, 3, vec![1]).unwrap_err().number(), 2);
    /// # Ok::<(), tailboardy::Refusal>(())
    /// ```
    ///
    /// # Errors
    ///
    /// Refusal 1 if the number of rows or trees is out of range, and 2 if there are not trees times rows counts.
    pub fn new(trees: usize, rows: usize, numbers: Vec<u32>) -> Result<Self, Refusal> {
        sizes::check(rows, 1, trees)?;
        let (is, asked) = (numbers.len(), trees * rows);
        if is != asked {
            return Err(Refusal::new(
                Cause::Lengths,
                Fault::Length {
                    list: "counts",
                    is,
                    asked,
                },
            ));
        }
        Ok(Counts {
            trees,
            rows,
            numbers,
        })
    }

    /// Every row exactly once in every tree.
    ///
    /// ```
    /// use tailboardy::Counts;
    ///
    /// assert_eq!(Counts::ones(2, 3)?.numbers(), [1; 6]);
    /// # Ok::<(), tailboardy::Refusal>(())
    /// ```
    ///
    /// # Errors
    ///
    /// Refusal 1 if the number of rows or trees is out of range.
    pub fn ones(trees: usize, rows: usize) -> Result<Self, Refusal> {
        sizes::check(rows, 1, trees)?;
        Counts::new(trees, rows, vec![1; trees * rows])
    }

    /// Draws bags from a seed: for each tree as many rows as there are, with replacement, all from one [stream](SplitMix64).
    ///
    /// ```
    /// use tailboardy::Counts;
    ///
    /// let bags = Counts::drawn(2, 6, 42)?;
    /// assert_eq!(bags.of_tree(1), [0, 0, 1, 0, 2, 3]);
    /// # Ok::<(), tailboardy::Refusal>(())
    /// ```
    ///
    /// # Errors
    ///
    /// Refusal 1 if the number of rows or trees is out of range.
    pub fn drawn(trees: usize, rows: usize, seed: u64) -> Result<Self, Refusal> {
        sizes::check(rows, 1, trees)?;
        let mut draws = SplitMix64::new(seed);
        let last = rows as u64 - 1;
        Counts::bags(trees, rows, || draws.up_to(last) as usize)
    }

    /// Draws bags from a seed with a probability proportional to each row's weight, as smartcore does. If all weights are 0, the bags
    /// are empty.
    ///
    /// The weights are checked here, in plain Rust, by the rule of a fit, because the trees themselves get no weights.
    ///
    /// ```
    /// use tailboardy::Counts;
    ///
    /// let bags = Counts::drawn_by_weight(100, &[1.0, 0.0, 3.0], 7)?;
    /// assert!((0..100).all(|tree| bags.of_tree(tree)[1] == 0));
    /// # Ok::<(), tailboardy::Refusal>(())
    /// ```
    ///
    /// # Errors
    ///
    /// Refusal 1 if the number of weights or trees is out of range, and 3 if a weight is not finite or is below 0.
    pub fn drawn_by_weight(trees: usize, weights: &[f64], seed: u64) -> Result<Self, Refusal> {
        sizes::check(weights.len(), 1, trees)?;
        if let Some(fault) = bad_weight(weights) {
            return Err(Refusal::new(Cause::Numbers, fault));
        }
        let sums = running(weights);
        let whole = sums.last().copied().unwrap_or(0.0);
        if whole <= 0.0 {
            return Counts::new(trees, weights.len(), vec![0; trees * weights.len()]);
        }
        let mut draws = SplitMix64::new(seed);
        Counts::bags(trees, weights.len(), || row_at(&sums, draws.unit() * whole))
    }

    fn bags(trees: usize, rows: usize, mut draw: impl FnMut() -> usize) -> Result<Self, Refusal> {
        let mut numbers = vec![0; trees * rows];
        for bag in numbers.chunks_exact_mut(rows) {
            for _ in 0..rows {
                bag[draw()] += 1;
            }
        }
        Counts::new(trees, rows, numbers)
    }

    /// Trees and rows.
    #[must_use]
    pub fn shape(&self) -> (usize, usize) {
        (self.trees, self.rows)
    }

    /// All counts, tree after tree.
    #[must_use]
    pub fn numbers(&self) -> &[u32] {
        &self.numbers
    }

    /// The counts of some trees, if they are for data with `rows` rows. Otherwise an empty list, which the library refuses.
    pub(crate) fn of_trees(&self, trees: Range<usize>, rows: usize) -> &[u32] {
        match self.rows == rows {
            true => &self.numbers[trees.start * rows..trees.end * rows],
            false => &[],
        }
    }

    /// One tree's counts; an empty slice if there is no such tree.
    #[must_use]
    pub fn of_tree(&self, tree: usize) -> &[u32] {
        match tree < self.trees {
            true => &self.numbers[tree * self.rows..(tree + 1) * self.rows],
            false => &[],
        }
    }
}

/// The first weight that a fit would refuse.
pub(crate) fn bad_weight(weights: &[f64]) -> Option<Fault> {
    let bad = |weight: &f64| !weight.is_finite() || *weight < 0.0;
    let row = weights.iter().position(bad)?;
    let value = weights[row];
    Some(Fault::Weight { row, value })
}

/// The sum of the weights up to each row, each weight divided by the greatest so that no sum is infinite.
fn running(weights: &[f64]) -> Vec<f64> {
    let greatest = weights.iter().fold(0.0, |held: f64, it| held.max(*it));
    let part = |weight: &f64| {
        if greatest > 0.0 {
            weight / greatest
        } else {
            0.0
        }
    };
    let mut sum = 0.0;
    weights
        .iter()
        .map(|weight| {
            sum += part(weight);
            sum
        })
        .collect()
}

/// The row whose interval of the running sums contains a number. A number that was rounded up to the end is in the last interval.
fn row_at(sums: &[f64], at: f64) -> usize {
    let last = sums.last().copied().unwrap_or(0.0);
    let end = sums.partition_point(|sum| *sum < last);
    sums.partition_point(|sum| *sum <= at).min(end)
}

#[cfg(test)]
mod tests {
    use super::*;

    /// These numbers were computed independently of this code.
    #[test]
    fn bags_come_of_one_stream() {
        let bags = Counts::drawn(2, 6, 42).unwrap();
        assert_eq!(bags.numbers(), [0, 0, 2, 1, 1, 2, 0, 0, 1, 0, 2, 3]);
    }

    #[test]
    fn bags_by_weight_leave_out_what_weighs_nothing() {
        let weights = [0.0, 3.0, -0.0, 1.0, 0.0];
        let bags = Counts::drawn_by_weight(400, &weights, 5).unwrap();
        let times = |row: usize| (0..400).map(|t| bags.of_tree(t)[row]).sum::<u32>();
        assert_eq!([times(0), times(2), times(4)], [0; 3]);
        assert!((1400..1600).contains(&times(1)), "{}", times(1));
        assert_eq!(times(1) + times(3), 2000);
    }

    #[test]
    fn a_row_has_its_stretch_of_the_sums() {
        let sums = running(&[0.0, 2.0, 0.0, 1.0, 0.0]);
        assert_eq!(sums, [0.0, 1.0, 1.0, 1.5, 1.5]);
        let rows = [0.0, 0.9, 1.0, 1.4, 1.5].map(|at| row_at(&sums, at));
        assert_eq!(rows, [1, 1, 3, 3, 3]);
    }

    #[test]
    fn any_weights_are_drawn_by_or_refused() {
        let huge = Counts::drawn_by_weight(2, &[f64::MAX; 3], 0).unwrap();
        assert_eq!(huge.numbers().iter().sum::<u32>(), 6);
        let tiny = Counts::drawn_by_weight(2, &[5e-324, 0.0], 0).unwrap();
        assert_eq!(tiny.numbers(), [2, 0, 2, 0]);
        let nothing = Counts::drawn_by_weight(2, &[0.0; 3], 0).unwrap();
        assert_eq!(nothing.numbers(), [0; 6]);
        for bad in [-1.0, f64::NAN, f64::INFINITY] {
            let refusal = Counts::drawn_by_weight(1, &[1.0, bad], 0).unwrap_err();
            assert_eq!(refusal.number(), 3);
        }
        assert_eq!(Counts::drawn_by_weight(1, &[], 0).unwrap_err().number(), 1);
    }
}
