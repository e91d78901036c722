//! Refusals: a number, a name, what is wrong and where, and what to do about it.

use crate::fault::{Breach, Fault};
use crate::misread::Misread;
use std::error::Error;
use std::fmt;

/// Why a call was refused. The number comes from the proved library, except 100, by which this crate refuses a result that is not
/// finite, and 101, by which it refuses what a stored forest does not have. The [`Fault`] tells a person where to look. The place of a
/// damaged listing, of a bad draw and of a damaged model file comes from the library too; any other is found by plain Rust code that
/// examines the same input.
///
/// ```
/// use tailboardy::{Cause, DenseMatrix, RandomForestRegressor};
///
/// let x = DenseMatrix::from_2d_array(&[[1.0], [f64::NAN]])?;
/// let refusal = RandomForestRegressor::fit(&x, &[0.0, 1.0], Default::default()).unwrap_err();
/// assert_eq!(refusal.number(), 3);
/// assert_eq!(refusal.cause(), Cause::Numbers);
/// assert_eq!(
///     refusal.to_string(),
///     "refusal 3 (numbers): feature 0 of row 1 is NaN; measure it again, or leave the row out"
/// );
/// # Ok::<(), tailboardy::Refusal>(())
/// ```
#[derive(Debug, Clone, PartialEq)]
pub struct Refusal {
    cause: Cause,
    fault: Option<Fault>,
}

/// The refusals, each with a number, a name and advice.
///
/// ```
/// use tailboardy::{Cause, DenseMatrix, RandomForestRegressor};
///
/// let x = DenseMatrix::from_2d_array(&[[1.0], [2.0]])?;
/// match RandomForestRegressor::fit(&x, &[0.0], Default::default()) {
///     Err(refusal) if refusal.cause() == Cause::Lengths => println!("{}", refusal.cause().advice()),
///     answer => panic!("{answer:?}"),
/// }
/// assert_eq!((Cause::Lengths.number(), Cause::Lengths.name()), (2, "lengths"));
/// # Ok::<(), tailboardy::Refusal>(())
/// ```
///
/// 1 to 4 and 6 to 18 are the proved library's, numbered as in the table of docs/RULES.md; 100 and 101 are this crate's own.
#[derive(Debug, Clone, Copy, PartialEq, Eq, Hash)]
#[non_exhaustive]
pub enum Cause {
    /// 1: the number of rows, features or trees is out of range.
    Sizes,
    /// 2: a list does not have the length that the sizes require, or a cut table is wrong.
    Lengths,
    /// 3: a value or target is not finite, or a weight is not finite or is below 0.
    Numbers,
    /// 4: a count is above 65,535, or is not 1 in a forest with weights.
    Counts,
    /// 6: a room is too short, or a result is not exactly as long as required. This crate makes the rooms, so users never see it.
    Rooms,
    /// 7: a draw is missing or out of range.
    Draw,
    /// 8: a table of nodes is damaged.
    Table,
    /// 9: out-of-bag means were requested of a forest that kept no counts.
    NoCounts,
    /// 10: out-of-bag means were requested for other rows than the forest was fitted on.
    OtherCounts,
    /// 11: a listing has a row number that is too large.
    NoSuchRow,
    /// 12: a listing has a row that appeared before in it.
    RowTwice,
    /// 13: in a listing, the value of a row is lower than that of the row before it.
    ValueFalls,
    /// 14: a model file ends early.
    FileEnds,
    /// 15: a file does not begin with the mark and the version of a model file.
    Mark,
    /// 16: a field of a model file has a number that it may not have.
    Field,
    /// 17: bytes follow the last node of a model file.
    LeftOver,
    /// 18: an out-of-bag error was requested, but no row has an out-of-bag mean.
    NoMeans,
    /// 100: a result is not finite. The library returns such a result, as smartcore does; this crate does not pass it on.
    NotFinite,
    /// 101: support was requested of a forest or a tree that was made from a table or read from a model file, which do not have it.
    NoSupport,
    /// A number that this crate does not know, because the library is newer.
    Unlisted(u32),
}

const CAUSES: [Cause; 17] = [
    Cause::Sizes,
    Cause::Lengths,
    Cause::Numbers,
    Cause::Counts,
    Cause::Rooms,
    Cause::Draw,
    Cause::Table,
    Cause::NoCounts,
    Cause::OtherCounts,
    Cause::NoSuchRow,
    Cause::RowTwice,
    Cause::ValueFalls,
    Cause::FileEnds,
    Cause::Mark,
    Cause::Field,
    Cause::LeftOver,
    Cause::NoMeans,
];

impl Cause {
    pub(crate) fn of(number: u32) -> Self {
        let listed = CAUSES.iter().find(|cause| cause.number() == number);
        listed.copied().unwrap_or(Cause::Unlisted(number))
    }

    /// The refusal's number.
    #[must_use]
    pub fn number(self) -> u32 {
        match self {
            Cause::Sizes => 1,
            Cause::Lengths => 2,
            Cause::Numbers => 3,
            Cause::Counts => 4,
            Cause::Rooms => 6,
            Cause::Draw => 7,
            Cause::Table => 8,
            Cause::NoCounts => 9,
            Cause::OtherCounts => 10,
            Cause::NoSuchRow => 11,
            Cause::RowTwice => 12,
            Cause::ValueFalls => 13,
            Cause::FileEnds => 14,
            Cause::Mark => 15,
            Cause::Field => 16,
            Cause::LeftOver => 17,
            Cause::NoMeans => 18,
            Cause::NotFinite => 100,
            Cause::NoSupport => 101,
            Cause::Unlisted(number) => number,
        }
    }

    /// A name of a few words.
    #[must_use]
    pub fn name(self) -> &'static str {
        match self {
            Cause::Sizes => "sizes",
            Cause::Lengths => "lengths",
            Cause::Numbers => "numbers",
            Cause::Counts => "counts",
            Cause::Rooms => "rooms",
            Cause::Draw => "draw",
            Cause::Table => "table",
            Cause::NoCounts => "no counts",
            Cause::OtherCounts => "other counts",
            Cause::NoSuchRow => "no such row",
            Cause::RowTwice => "row twice",
            Cause::ValueFalls => "value falls",
            Cause::FileEnds => "file ends early",
            Cause::Mark => "not such a file",
            Cause::Field => "bad field",
            Cause::LeftOver => "bytes left over",
            Cause::NoMeans => "no means",
            Cause::NotFinite => "not finite",
            Cause::NoSupport => "no support",
            Cause::Unlisted(_) => "unlisted",
        }
    }

    /// What a person can do about it.
    #[must_use]
    pub fn advice(self) -> &'static str {
        match self {
            Cause::Sizes => "use 1 to 65,535 rows, 1 to 1,024 features and 1 to 1,024 trees",
            Cause::Lengths => {
                "give each list the length that the numbers of rows, features and trees require"
            }
            Cause::Numbers => "measure it again, or leave the row out",
            Cause::Counts => {
                "a count must be at most 65,535, and exactly 1 in a forest with weights"
            }
            Cause::Rooms => "make the rooms longer",
            Cause::Draw => {
                "each search needs a complete order of the features, and each threshold must be at least the lowest value of its rows and below the highest"
            }
            Cause::Table => "the table is damaged: load it again, or fit again",
            Cause::NoCounts => {
                "fit with keep_samples, which records the rows that each tree left out"
            }
            Cause::OtherCounts => "pass the rows that the forest was fitted on",
            Cause::NoSuchRow => {
                "rows are counted from 0: sort the rows of this feature again, with each row exactly once"
            }
            Cause::RowTwice => "sort the rows of this feature again, with each row exactly once",
            Cause::ValueFalls => "sort the rows of this feature again, in ascending order of value",
            Cause::FileEnds => "the file is cut off: copy it again, or write it again",
            Cause::Mark => {
                "this is not a model file, or one of another version: choose another file, or write it again"
            }
            Cause::Field => "the file is damaged: copy it again, or write it again",
            Cause::LeftOver => "something was added to the file: copy it again, or write it again",
            Cause::NoMeans => "use bootstrap, two rows or more, and enough trees",
            Cause::NotFinite => {
                "the targets or weights are too large, or the weights too small, to calculate with: multiply or divide all of them by a constant"
            }
            Cause::NoSupport => {
                "a table of nodes or a model file does not say how many rows are in a leaf: use what was fitted, or fit again"
            }
            Cause::Unlisted(_) => "rebuild this crate for the library that it is linked with",
        }
    }
}

impl Breach {
    /// The refusal that it leads to if the listing has as many numbers as there are rows. Any other listing is refused by 2.
    #[must_use]
    pub fn cause(self) -> Cause {
        match self {
            Breach::NoSuchRow(_) => Cause::NoSuchRow,
            Breach::Twice { .. } => Cause::RowTwice,
            Breach::Falls { .. } => Cause::ValueFalls,
            Breach::Ends => Cause::Lengths,
        }
    }
}

impl Misread {
    /// The refusal that it leads to.
    #[must_use]
    pub fn cause(self) -> Cause {
        match self {
            Misread::Ends { .. } => Cause::FileEnds,
            Misread::Mark(_) | Misread::Version(_) => Cause::Mark,
            Misread::Number { .. } | Misread::Nan(_) => Cause::Field,
            Misread::LeftOver(_) => Cause::LeftOver,
        }
    }
}

impl Refusal {
    pub(crate) fn new(cause: Cause, fault: Fault) -> Self {
        Refusal {
            cause,
            fault: Some(fault),
        }
    }

    /// One that has nothing to point at.
    pub(crate) fn bare(cause: Cause) -> Self {
        Refusal { cause, fault: None }
    }

    /// From the library's number, with the fault that was found.
    pub(crate) fn of(number: u32, fault: Option<Fault>) -> Self {
        Refusal {
            cause: Cause::of(number),
            fault,
        }
    }

    /// Which refusal it is.
    #[must_use]
    pub fn cause(&self) -> Cause {
        self.cause
    }

    /// The refusal's number.
    #[must_use]
    pub fn number(&self) -> u32 {
        self.cause.number()
    }

    /// What is wrong, and where. `None` if there is nothing to point at.
    #[must_use]
    pub fn fault(&self) -> Option<&Fault> {
        self.fault.as_ref()
    }
}

impl fmt::Display for Refusal {
    fn fmt(&self, f: &mut fmt::Formatter<'_>) -> fmt::Result {
        let (number, name) = (self.cause.number(), self.cause.name());
        write!(f, "refusal {number} ({name}): ")?;
        if let Some(fault) = &self.fault {
            write!(f, "{fault}; ")?;
        }
        f.write_str(self.cause.advice())
    }
}

impl Error for Refusal {}
