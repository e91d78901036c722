//! Predictions of any number of rows. A call of the library takes at most 65,535, so more rows are predicted in parts, one call each.

use crate::explain;
use crate::finite;
use crate::limits::MAX_ROWS;
use crate::matrix::DenseMatrix;
use crate::refusal::Refusal;
use crate::results::Means;

/// Predicts one part of the rows after another. `call` is given the number of rows of a part, their values, and a room for the results;
/// it returns 0 or a refusal, which ends it.
pub(crate) fn predict(
    x: &DenseMatrix,
    features: usize,
    call: impl Fn(usize, &[f64], &mut [f64]) -> u32,
) -> Result<Means, Refusal> {
    let (rows, columns) = x.shape();
    let mut out = Vec::new();
    loop {
        let start = out.len();
        let end = rows.min(start + MAX_ROWS);
        out.resize(end, 0.0);
        let values = &x.values()[start * columns..end * columns];
        match call(end - start, values, &mut out[start..]) {
            0 if end < rows => (),
            0 => return finite::all("prediction of row", out).map(Means),
            number => return Err(Refusal::of(number, explain::reader(x, features))),
        }
    }
}
