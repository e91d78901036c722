//! Listings: for each feature all row numbers in ascending order of value.

use crate::fault::{Breach, Fault, ListingFault};
use crate::limits::MAX_ROWS;
use crate::matrix::DenseMatrix;
use crate::refusal::{Cause, Refusal};
use crate::sizes;
use tailboardy_sys::{Refusal as Told, linked};

/// For each feature all row numbers, counted from 0, in ascending order of value.
///
/// [`sorted`](Listings::sorted) makes listings, in plain Rust, outside the proved core. A show database that keeps its own can pass
/// them in ([`from_columns`](Listings::from_columns)). Either way they need not be trusted: the proved library checks them in every
/// fit, and in [`check`](Listings::check).
///
/// ```
/// use tailboardy::{DenseMatrix, Listings};
///
/// let x = DenseMatrix::from_2d_array(&[[7.5], [6.8], [7.1], [7.1]])?;
/// let listings = Listings::sorted(&x);
/// assert_eq!(listings.features(), 1);
/// assert_eq!(listings.column(0), Some(&[1, 2, 3, 0][..]));
/// listings.check(&x)?;
///
/// let damaged = Listings::from_columns(&[[1, 3, 3, 0]])?;
/// let refusal = damaged.check(&x).unwrap_err();
/// assert_eq!(refusal.number(), 12);
/// assert_eq!(
///     refusal.to_string(),
///     "refusal 12 (row twice): feature 0: row 3 appears twice, at positions 1 and 2, and row 2 is missing; \
///      sort the rows of this feature again, with each row exactly once"
/// );
/// # Ok::<(), tailboardy::Refusal>(())
/// ```
#[derive(Debug, Clone, PartialEq, Eq)]
pub struct Listings {
    features: usize,
    /// How long each feature's listing is.
    length: usize,
    numbers: Vec<u32>,
}

impl Listings {
    /// Sorts the rows of each feature by value, and rows with the same value by number; -0 and +0 are the same value. This is plain
    /// Rust, outside the proved core. For a matrix with more rows or features than a fit accepts, the listings are empty.
    #[must_use]
    pub fn sorted(x: &DenseMatrix) -> Self {
        let (rows, features) = x.shape();
        if sizes::check(rows, features, 1).is_err() {
            return Listings {
                features,
                length: 0,
                numbers: Vec::new(),
            };
        }
        let mut numbers = Vec::with_capacity(rows * features);
        let mut column: Vec<(u64, u32)> = Vec::with_capacity(rows);
        for feature in 0..features {
            let values = x.values().iter().skip(feature).step_by(features);
            column.clear();
            column.extend(values.map(|value| rank(*value)).zip(0..));
            column.sort_unstable();
            numbers.extend(column.iter().map(|(_, row)| *row));
        }
        Listings {
            features,
            length: rows,
            numbers,
        }
    }

    /// Takes one listing per feature, all of the same length.
    ///
    /// ```
    /// use tailboardy::Listings;
    ///
    /// let listings = Listings::from_columns(&[[1, 2, 0], [0, 1, 2]])?;
    /// assert_eq!(listings.column(1), Some(&[0, 1, 2][..]));
    ///
    /// let refusal = Listings::from_columns(&[vec![1, 2, 0], vec![0, 1]]).unwrap_err();
    /// assert_eq!(refusal.number(), 2);
    /// # Ok::<(), tailboardy::Refusal>(())
    /// ```
    ///
    /// # Errors
    ///
    /// Refusal 2 if a listing is not as long as the first. What is in them is checked later.
    pub fn from_columns<C: AsRef<[u32]>>(columns: &[C]) -> Result<Self, Refusal> {
        let length = columns.first().map_or(0, |column| column.as_ref().len());
        let other = columns.iter().find(|it| it.as_ref().len() != length);
        if let Some(column) = other {
            return Err(Refusal::new(
                Cause::Lengths,
                Fault::Length {
                    list: "row numbers in a listing",
                    is: column.as_ref().len(),
                    asked: length,
                },
            ));
        }
        Ok(Listings {
            features: columns.len(),
            length,
            numbers: columns.iter().flat_map(AsRef::as_ref).copied().collect(),
        })
    }

    /// Checks, with the proved library, that each feature's listing contains each row exactly once and that its values never decrease.
    /// The library also tells the first place that is wrong, listing after listing, each from its front ([`ListingFault`]).
    ///
    /// ```
    /// use tailboardy::{DenseMatrix, Listings};
    ///
    /// let x = DenseMatrix::from_2d_array(&[[7.5], [6.8], [7.1]])?;
    /// assert!(Listings::from_columns(&[[1, 2, 0]])?.check(&x).is_ok());
    ///
    /// let number = |rows: [u32; 3]| Some(Listings::from_columns(&[rows]).ok()?.check(&x).err()?.number());
    /// assert_eq!(number([1, 2, 3]), Some(11)); // there is no row 3
    /// assert_eq!(number([1, 2, 1]), Some(12)); // row 1 appears twice
    /// assert_eq!(number([2, 1, 0]), Some(13)); // row 1 is lower than row 2
    /// # Ok::<(), tailboardy::Refusal>(())
    /// ```
    ///
    /// # Errors
    ///
    /// Refusal 1 if the number of rows or features is out of range, 2 if there is not one listing per feature with as many numbers as there
    /// are rows, and 11, 12 or 13 if a listing is damaged.
    pub fn check(&self, x: &DenseMatrix) -> Result<(), Refusal> {
        let (rows, features) = x.shape();
        let told = linked::check_listings(rows, features, x.values(), self.numbers(x));
        let fault = match told.number {
            0 => return Ok(()),
            1 => sizes::fault(rows, features, 1),
            2 => self.other_shape(x),
            _ => self.told(&told, rows).map(Fault::Listing),
        };
        Err(Refusal::of(told.number, fault))
    }

    /// The first position where one feature's listing is wrong, if there is one. The proved library is asked about this listing alone, so
    /// that faults after the first feature's can be told too. A listing of another length is read as far as the matrix has rows. If
    /// nothing is wrong there, one that is too short [ends](Breach::Ends), and what follows in one that is too long is a row that
    /// appeared before, or none of the matrix.
    #[must_use]
    pub fn fault(&self, x: &DenseMatrix, feature: usize) -> Option<ListingFault> {
        let (rows, features) = x.shape();
        let column = self.column(feature)?;
        if rows > MAX_ROWS || feature >= features {
            return None;
        }
        let values = x.values().iter().skip(feature).step_by(features);
        let values: Vec<f64> = values.copied().collect();
        let mut own = column.to_vec();
        // where a listing that is too short ends, the library is given a row that does not exist
        own.resize(rows, u32::MAX);
        let mut told = linked::check_listings(rows, 1, &values, &own);
        told.part = feature as u32;
        // 1 is told of a matrix without rows
        if let (0 | 1, Some(row)) = (told.number, column.get(rows)) {
            told.number = if (*row as usize) < rows { 12 } else { 11 };
            told.place = rows as u32;
        }
        self.told(&told, rows)
    }

    /// A fault that the library told, with what the listing has at its place.
    pub(crate) fn told(&self, told: &Told, rows: usize) -> Option<ListingFault> {
        let (feature, place) = (told.part as usize, told.place as usize);
        let column = self.column(feature)?;
        let breach = match (told.number, column.get(place)) {
            (11, None) => Breach::Ends,
            (11, Some(row)) => Breach::NoSuchRow(*row),
            (12, Some(row)) => Breach::Twice {
                row: *row,
                before: column.iter().position(|it| it == row)?,
            },
            (13, Some(row)) => Breach::Falls {
                row: *row,
                after: *column.get(place.checked_sub(1)?)?,
            },
            _ => return None,
        };
        let missing = match told.number {
            12 if column.len() == rows => Some(told.row as usize),
            _ => missing(column, rows),
        };
        Some(ListingFault {
            feature,
            place,
            breach,
            missing,
        })
    }

    /// Why the library refuses these listings as being of another shape than the matrix, if they are.
    pub(crate) fn other_shape(&self, x: &DenseMatrix) -> Option<Fault> {
        let (rows, features) = x.shape();
        let fault = || match self.length == rows {
            true => None,
            false => self.fault(x, 0).map(Fault::Listing),
        };
        Fault::length("listings", self.features, features).or_else(fault)
    }

    /// How many features have a listing.
    #[must_use]
    pub fn features(&self) -> usize {
        self.features
    }

    /// One feature's listing.
    #[must_use]
    pub fn column(&self, feature: usize) -> Option<&[u32]> {
        let start = feature.checked_mul(self.length)?;
        (feature < self.features).then(|| &self.numbers[start..start + self.length])
    }

    /// All listings, if the matrix has the shape that they are for. Otherwise an empty list, which the library refuses: the same
    /// numbers, cut into other columns, could pass for good listings.
    pub(crate) fn numbers(&self, x: &DenseMatrix) -> &[u32] {
        match x.shape() == (self.length, self.features) {
            true => &self.numbers,
            false => &[],
        }
    }
}

/// A number that increases with the value, and is the same for both zeros.
fn rank(value: f64) -> u64 {
    let bits = (value + 0.0).to_bits();
    if bits >> 63 == 1 {
        !bits
    } else {
        bits | 1 << 63
    }
}

/// The lowest row that a listing lacks. The library tells it only with a row that appears twice.
fn missing(column: &[u32], rows: usize) -> Option<usize> {
    let mut there = vec![false; rows];
    for row in column {
        if let Some(seen) = there.get_mut(*row as usize) {
            *seen = true;
        }
    }
    there.iter().position(|seen| !seen)
}

#[cfg(test)]
mod tests {
    use super::*;

    #[test]
    fn rows_of_one_value_stay_in_their_order() {
        let values = [0.0, -0.0, 5e-324, 0.0, -5e-324, -1e300, 1e300, -0.0];
        let x = DenseMatrix::new(8, 1, values.to_vec(), false).unwrap();
        let listings = Listings::sorted(&x);
        assert_eq!(listings.column(0), Some(&[5, 4, 0, 1, 3, 7, 2, 6][..]));
        assert_eq!(listings.column(1), None);
    }
}
