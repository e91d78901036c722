//! Rows in parts, for what takes a number for each row and tree.

use tailboardy::{DenseMatrix, RandomForestRegressor, Refusal};

/// How many of these numbers are held at a time, so that those of the largest forest fit into memory.
const HELD: usize = 1 << 22;

/// What is found out about each row, some rows at a time.
pub fn in_parts<T>(
    forest: &RandomForestRegressor,
    x: &DenseMatrix,
    some: impl Fn(&DenseMatrix) -> Result<Vec<T>, Refusal>,
) -> Result<Vec<T>, Refusal> {
    let part = (HELD / forest.n_trees().max(1)).max(1);
    let (rows, features) = x.shape();
    let mut all = Vec::with_capacity(rows);
    for values in x.values().chunks(part * features.max(1)) {
        let rows = values.len() / features.max(1);
        let part = DenseMatrix::new(rows, features, values.to_vec(), false)?;
        all.append(&mut some(&part)?);
    }
    Ok(all)
}
