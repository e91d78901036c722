//! How far the trees of a forest lie apart.

use crate::parts::in_parts;
use tailboardy::{DenseMatrix, RandomForestRegressor, Refusal};

/// For each row a low and a high prediction of the trees: a tenth of them lie at or below the low one, and nine tenths at or below the high
/// one. Both are nearest ranks, so each is the prediction of some tree.
pub fn of(forest: &RandomForestRegressor, x: &DenseMatrix) -> Result<Vec<(f64, f64)>, Refusal> {
    in_parts(forest, x, |part| {
        let trees = forest.predict_trees(part)?;
        let ends = |row: usize| {
            let mut predicted: Vec<f64> = trees.iter().map(|tree| tree[row]).collect();
            predicted.sort_unstable_by(f64::total_cmp);
            (ranked(&predicted, 1), ranked(&predicted, 9))
        };
        Ok((0..part.shape().0).map(ends).collect())
    })
}

/// The least value that so many tenths of the sorted values do not exceed.
fn ranked(sorted: &[f64], tenths: usize) -> f64 {
    let rank = (sorted.len() * tenths).div_ceil(10);
    sorted.get(rank.max(1) - 1).copied().unwrap_or(f64::NAN)
}

#[cfg(test)]
mod tests {
    use super::*;
    use tailboardy::RandomForestRegressorParameters;

    #[test]
    fn ranks_are_the_nearest() {
        let values: Vec<f64> = (1..=100).map(f64::from).collect();
        assert_eq!((ranked(&values, 1), ranked(&values, 9)), (10.0, 90.0));
        assert_eq!(
            (ranked(&values[..15], 1), ranked(&values[..15], 9)),
            (2.0, 14.0)
        );
        assert_eq!(
            (ranked(&values[..1], 1), ranked(&values[..1], 9)),
            (1.0, 1.0)
        );
    }

    /// Each end is what some tree predicts, and a tenth of the trees lie beyond it at most.
    #[test]
    fn ends_are_predictions_of_trees() {
        let rows: Vec<[f64; 1]> = (0..40).map(|it| [f64::from(it)]).collect();
        let y: Vec<f64> = (0..40).map(|it| f64::from(it * it % 17)).collect();
        let x = DenseMatrix::from_2d_array(&rows).unwrap();
        let parameters = RandomForestRegressorParameters::default().with_n_trees(30);
        let forest = RandomForestRegressor::fit(&x, &y, parameters).unwrap();
        let ends = of(&forest, &x).unwrap();
        assert_eq!(ends.len(), 40);
        assert!(ends.iter().any(|(low, high)| low < high));
        for (row, (low, high)) in ends.into_iter().enumerate() {
            let trees: Vec<f64> = forest
                .trees()
                .map(|tree| tree.predict(&x).unwrap()[row])
                .collect();
            let below = trees.iter().filter(|it| **it < low).count();
            let above = trees.iter().filter(|it| **it > high).count();
            assert!(trees.contains(&low) && trees.contains(&high));
            assert!(low <= high && below <= 2 && above <= 3, "{below} {above}");
        }
    }
}
