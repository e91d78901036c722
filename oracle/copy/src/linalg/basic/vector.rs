//! tailboardy: a vector and its views as smartcore's one-dimensional arrays, in the simplest form.

use super::arrays::{Array, Array1, ArrayView1, MutArray, MutArrayView1};
use std::fmt::{Debug, Display};
use std::ops::Range;

pub trait Item: Debug + Display + Copy + Sized {}
impl<T: Debug + Display + Copy + Sized> Item for T {}

impl<T: Item> Array<T, usize> for Vec<T> {
    fn get(&self, at: usize) -> &T {
        &self[at]
    }
    fn shape(&self) -> usize {
        self.len()
    }
    fn is_empty(&self) -> bool {
        self.len() == 0
    }
    fn iterator<'b>(&'b self, _axis: u8) -> Box<dyn Iterator<Item = &'b T> + 'b> {
        Box::new(self.iter())
    }
}

impl<T: Item> MutArray<T, usize> for Vec<T> {
    fn set(&mut self, at: usize, x: T) {
        self[at] = x;
    }
    fn iterator_mut<'b>(&'b mut self, _axis: u8) -> Box<dyn Iterator<Item = &'b mut T> + 'b> {
        Box::new(self.iter_mut())
    }
}

impl<T: Item> ArrayView1<T> for Vec<T> {}
impl<T: Item> MutArrayView1<T> for Vec<T> {}

impl<T: Item> Array1<T> for Vec<T> {
    fn slice<'a>(&'a self, range: Range<usize>) -> Box<dyn ArrayView1<T> + 'a> {
        Box::new(self[range].to_vec())
    }
    fn slice_mut<'a>(&'a mut self, _range: Range<usize>) -> Box<dyn MutArrayView1<T> + 'a> {
        unreachable!("neither trees nor forests take a part to change")
    }
    fn fill(len: usize, value: T) -> Self {
        vec![value; len]
    }
    fn from_iterator<I: Iterator<Item = T>>(iter: I, len: usize) -> Self {
        iter.take(len).collect()
    }
    fn from_vec_slice(slice: &[T]) -> Self {
        slice.to_vec()
    }
    fn from_slice(slice: &dyn ArrayView1<T>) -> Self {
        slice.iterator(0).copied().collect()
    }
}
