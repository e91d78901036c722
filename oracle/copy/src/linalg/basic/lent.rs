//! tailboardy: the matrix that trees read: feature values row by row, in a vector.

use super::arrays::{
    Array, Array2, ArrayView1, ArrayView2, MutArray, MutArrayView1, MutArrayView2,
};
use std::ops::Range;

#[derive(Clone, Debug)]
pub struct Matrix {
    rows: usize,
    features: usize,
    values: Vec<f64>,
}

impl Matrix {
    pub fn new(rows: usize, features: usize, values: &[f64]) -> Self {
        assert_eq!(values.len(), rows * features);
        Matrix {
            rows,
            features,
            values: values.to_vec(),
        }
    }

    /// The order in which smartcore's own sort puts a column.
    pub fn argsort_column(&self, feature: usize) -> Vec<usize> {
        let mut column: Vec<f64> = self.get_col(feature).iterator(0).copied().collect();
        column.argsort_mut()
    }
}

impl Array<f64, (usize, usize)> for Matrix {
    fn get(&self, at: (usize, usize)) -> &f64 {
        &self.values[at.0 * self.features + at.1]
    }
    fn shape(&self) -> (usize, usize) {
        (self.rows, self.features)
    }
    fn is_empty(&self) -> bool {
        self.values.is_empty()
    }
    fn iterator<'b>(&'b self, axis: u8) -> Box<dyn Iterator<Item = &'b f64> + 'b> {
        match axis {
            0 => Box::new(self.values.iter()),
            _ => Box::new(
                (0..self.features).flat_map(move |c| (0..self.rows).map(move |r| self.get((r, c)))),
            ),
        }
    }
}

impl MutArray<f64, (usize, usize)> for Matrix {
    fn set(&mut self, at: (usize, usize), x: f64) {
        self.values[at.0 * self.features + at.1] = x;
    }
    fn iterator_mut<'b>(&'b mut self, _axis: u8) -> Box<dyn Iterator<Item = &'b mut f64> + 'b> {
        Box::new(self.values.iter_mut())
    }
}

impl ArrayView2<f64> for Matrix {}
impl MutArrayView2<f64> for Matrix {}

impl Array2<f64> for Matrix {
    fn fill(nrows: usize, ncols: usize, value: f64) -> Self {
        Matrix::new(nrows, ncols, &vec![value; nrows * ncols])
    }
    fn slice<'a>(&'a self, _: Range<usize>, _: Range<usize>) -> Box<dyn ArrayView2<f64> + 'a> {
        unreachable!("neither trees nor forests take a part")
    }
    fn slice_mut<'a>(
        &'a mut self,
        _: Range<usize>,
        _: Range<usize>,
    ) -> Box<dyn MutArrayView2<f64> + 'a> {
        unreachable!("neither trees nor forests take a part")
    }
    fn from_iterator<I: Iterator<Item = f64>>(it: I, rows: usize, cols: usize, axis: u8) -> Self {
        assert_eq!(axis, 0, "only rows one after another");
        Matrix::new(rows, cols, &it.collect::<Vec<_>>())
    }
    fn get_row<'a>(&'a self, row: usize) -> Box<dyn ArrayView1<f64> + 'a> {
        Box::new(self.values[row * self.features..(row + 1) * self.features].to_vec())
    }
    fn get_col<'a>(&'a self, col: usize) -> Box<dyn ArrayView1<f64> + 'a> {
        let column = (0..self.rows).map(|row| *self.get((row, col)));
        Box::new(column.collect::<Vec<f64>>())
    }
}
