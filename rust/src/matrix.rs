//! Feature values.

use crate::fault::Fault;
use crate::refusal::{Cause, Refusal};

/// Feature values, a row for each fixture. It may hold any numbers: a fit refuses those that are not finite, while a prediction accepts
/// them (a row with a NaN goes to the false child).
///
/// ```
/// use tailboardy::DenseMatrix;
///
/// let x = DenseMatrix::from_2d_array(&[[7.5, -2.0], [7.1, 0.5], [6.8, 3.0]])?;
/// assert_eq!(x.shape(), (3, 2));
/// assert_eq!(x.get((2, 1)), Some(3.0));
/// # Ok::<(), tailboardy::Refusal>(())
/// ```
#[derive(Debug, Clone, PartialEq)]
pub struct DenseMatrix {
    rows: usize,
    features: usize,
    values: Vec<f64>,
}

impl DenseMatrix {
    /// Takes the values column after column (`column_major` true) or row after row, as smartcore does. Either way they are kept row
    /// after row.
    ///
    /// ```
    /// use tailboardy::DenseMatrix;
    ///
    /// let by_rows = DenseMatrix::new(2, 3, vec![1.0, 2.0, 3.0, 4.0, 5.0, 6.0], false)?;
    /// let by_columns = DenseMatrix::new(2, 3, vec![1.0, 4.0, 2.0, 5.0, 3.0, 6.0], true)?;
    /// assert_eq!(by_rows, by_columns);
    /// assert_eq!(by_columns.row(1), Some(&[4.0, 5.0, 6.0][..]));
    ///
    /// let refusal = DenseMatrix::new(2, 3, vec![1.0, 2.0], false).unwrap_err();
    /// assert_eq!(refusal.number(), 2);
    /// # Ok::<(), tailboardy::Refusal>(())
    /// ```
    ///
    /// # Errors
    ///
    /// Refusal 2 if there are not rows times columns values.
    pub fn new(
        rows: usize,
        columns: usize,
        values: Vec<f64>,
        column_major: bool,
    ) -> Result<Self, Refusal> {
        let asked = rows.checked_mul(columns);
        if asked != Some(values.len()) {
            return Err(Refusal::new(
                Cause::Lengths,
                Fault::Length {
                    list: "values",
                    is: values.len(),
                    asked: asked.unwrap_or(usize::MAX),
                },
            ));
        }
        Ok(DenseMatrix {
            rows,
            features: columns,
            values: match column_major {
                true => by_rows(rows, &values),
                false => values,
            },
        })
    }

    /// Takes rows, as arrays, slices or vectors, that all have the same length.
    ///
    /// ```
    /// use tailboardy::DenseMatrix;
    ///
    /// let x = DenseMatrix::from_2d_array(&[&[7.5, -2.0], &[7.1, 0.5]])?;
    /// assert_eq!(x.shape(), (2, 2));
    ///
    /// let refusal = DenseMatrix::from_2d_array(&[&[7.5, -2.0][..], &[7.1]]).unwrap_err();
    /// assert!(refusal.to_string().contains("row 1 has 1 values, but the first row has 2"));
    /// # Ok::<(), tailboardy::Refusal>(())
    /// ```
    ///
    /// # Errors
    ///
    /// Refusal 2 if a row does not have as many values as the first.
    pub fn from_2d_array<R: AsRef<[f64]>>(rows: &[R]) -> Result<Self, Refusal> {
        let features = rows.first().map_or(0, |row| row.as_ref().len());
        let mut values = Vec::with_capacity(rows.len().saturating_mul(features).min(1 << 20));
        for (row, of) in rows.iter().enumerate() {
            let is = of.as_ref().len();
            if is != features {
                let asked = features;
                return Err(Refusal::new(
                    Cause::Lengths,
                    Fault::Ragged { row, is, asked },
                ));
            }
            values.extend_from_slice(of.as_ref());
        }
        Ok(DenseMatrix {
            rows: rows.len(),
            features,
            values,
        })
    }

    /// Takes rows as vectors that all have the same length.
    ///
    /// ```
    /// use tailboardy::DenseMatrix;
    ///
    /// let x = DenseMatrix::from_2d_vec(&vec![vec![7.5, -2.0], vec![7.1, 0.5]])?;
    /// assert_eq!(x.get((1, 0)), Some(7.1));
    /// # Ok::<(), tailboardy::Refusal>(())
    /// ```
    ///
    /// # Errors
    ///
    /// Refusal 2 if a row does not have as many values as the first.
    pub fn from_2d_vec(rows: &[Vec<f64>]) -> Result<Self, Refusal> {
        DenseMatrix::from_2d_array(rows)
    }

    /// Rows and features.
    #[must_use]
    pub fn shape(&self) -> (usize, usize) {
        (self.rows, self.features)
    }

    /// The values, row after row.
    #[must_use]
    pub fn values(&self) -> &[f64] {
        &self.values
    }

    /// One value, by row and feature.
    #[must_use]
    pub fn get(&self, (row, feature): (usize, usize)) -> Option<f64> {
        self.row(row)?.get(feature).copied()
    }

    /// One row's values.
    #[must_use]
    pub fn row(&self, row: usize) -> Option<&[f64]> {
        let start = row.checked_mul(self.features)?;
        (row < self.rows).then(|| &self.values[start..start + self.features])
    }
}

/// Values row after row, from the same column after column.
fn by_rows(rows: usize, columns: &[f64]) -> Vec<f64> {
    // without values there is nothing to turn, however many rows there are
    let rows = rows.min(columns.len());
    let row = |row: usize| columns[row..].iter().step_by(rows);
    (0..rows).flat_map(row).copied().collect()
}
