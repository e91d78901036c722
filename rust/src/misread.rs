//! Where a model file cannot be read, and what is there.

use std::fmt;

/// The first field of a model file that cannot be read. The place comes from the proved library; which field that is, and what it
/// holds, is found by plain Rust.
///
/// ```
/// use tailboardy::{DenseMatrix, Fault, Field, Misread, RandomForestRegressor};
///
/// let x = DenseMatrix::from_2d_array(&[[1.0], [2.0], [3.0], [4.0]])?;
/// let forest = RandomForestRegressor::fit(&x, &[0.0, 0.0, 10.0, 10.0], Default::default())?;
/// let mut bytes = forest.model_bytes()?;
/// bytes.truncate(20);
/// let refusal = RandomForestRegressor::from_model_bytes(&bytes).unwrap_err();
/// let Some(Fault::Model(fault)) = refusal.fault() else { panic!("{refusal}") };
/// assert_eq!((fault.place, &fault.breach), (13, &Misread::Ends { bytes: 20 }));
/// assert_eq!(fault.field, Field::Node { tree: 0, node: 0, entry: "value" });
/// assert_eq!(
///     fault.to_string(),
///     "byte 13: the file ends after 20 bytes, in the middle of the value of node 0 of tree 0"
/// );
/// # Ok::<(), tailboardy::Refusal>(())
/// ```
#[derive(Debug, Clone, PartialEq, Eq)]
pub struct ModelFault {
    /// The byte at which the field begins, counted from 0.
    pub place: usize,
    /// The field.
    pub field: Field,
    /// What is wrong with it.
    pub breach: Misread,
}

/// A field of a model file. Trees, nodes and features are counted from 0.
///
/// ```
/// use tailboardy::Field;
///
/// assert_eq!(Field::Nodes { tree: 2 }.to_string(), "the number of nodes of tree 2");
/// let split = Field::Node { tree: 2, node: 5, entry: "threshold" };
/// assert_eq!(split.to_string(), "the threshold of node 5 of tree 2");
/// ```
#[derive(Debug, Clone, Copy, PartialEq, Eq)]
#[non_exhaustive]
#[allow(missing_docs)]
pub enum Field {
    /// The three letters that every model file begins with.
    Mark,
    /// The version of the format.
    Version,
    /// The number of features.
    Features,
    /// The number of trees.
    Trees,
    /// The number of nodes of a tree.
    Nodes { tree: usize },
    /// The name of an entry of a node: value or true child, or of a split also feature, threshold or score.
    Node {
        tree: usize,
        node: usize,
        entry: &'static str,
    },
    /// No field: the last one ends here.
    End,
}

/// What is wrong with a field of a model file.
///
/// ```
/// use tailboardy::{Cause, Misread};
///
/// assert_eq!(Misread::Version(2).cause(), Cause::Mark);
/// assert_eq!(Misread::LeftOver(1).cause().number(), 17);
/// ```
#[derive(Debug, Clone, Copy, PartialEq, Eq)]
#[non_exhaustive]
#[allow(missing_docs)]
pub enum Misread {
    /// 14: the file ends before the field does, after so many bytes.
    Ends { bytes: usize },
    /// 15: the file begins with these bytes instead of `RGF`.
    Mark([u8; 3]),
    /// 15: the version is this instead of 1.
    Version(u16),
    /// 16: a number that is out of range. A true child may also be 0, and must be if `least` is above `most`.
    Number { is: u64, least: u64, most: u64 },
    /// 16: the bits of a NaN other than the one that is written.
    Nan(u64),
    /// 17: so many bytes follow the last node.
    LeftOver(usize),
}

impl Field {
    /// How many bytes it takes.
    pub(crate) fn length(self) -> usize {
        match self {
            Field::Mark => 3,
            Field::Version | Field::Features | Field::Trees => 2,
            Field::Nodes { .. } => 4,
            Field::Node { entry, .. } => match entry {
                "true child" => 4,
                "feature" => 2,
                _ => 8,
            },
            Field::End => 0,
        }
    }
}

impl fmt::Display for Field {
    fn fmt(&self, f: &mut fmt::Formatter<'_>) -> fmt::Result {
        match self {
            Field::Mark => f.write_str("the mark"),
            Field::Version => f.write_str("the version"),
            Field::Features => f.write_str("the number of features"),
            Field::Trees => f.write_str("the number of trees"),
            Field::Nodes { tree } => write!(f, "the number of nodes of tree {tree}"),
            Field::Node { tree, node, entry } => {
                write!(f, "the {entry} of node {node} of tree {tree}")
            }
            Field::End => f.write_str("the end"),
        }
    }
}

impl fmt::Display for ModelFault {
    fn fmt(&self, f: &mut fmt::Formatter<'_>) -> fmt::Result {
        let (place, field) = (self.place, self.field);
        write!(f, "byte {place}: ")?;
        match self.breach {
            Misread::Ends { bytes: 0 } => f.write_str("the file is empty"),
            Misread::Ends { bytes } if bytes == place => write!(f, "the file ends before {field}"),
            Misread::Ends { bytes } => {
                write!(
                    f,
                    "the file ends after {bytes} bytes, in the middle of {field}"
                )
            }
            Misread::Mark(is) => {
                let is = is.escape_ascii();
                write!(
                    f,
                    "the file begins with \"{is}\", not with the mark \"RGF\""
                )
            }
            Misread::Version(is) => write!(f, "the version is {is}, but only version 1 is read"),
            Misread::Number { is, least, most } => {
                write!(f, "{field} is {is}, but must be ")?;
                range(field, least, most, f)
            }
            Misread::Nan(bits) => write!(
                f,
                "{field} has the bits {bits:016x}, but the only NaN in a model file is {NAN:016x}"
            ),
            Misread::LeftOver(1) => f.write_str("the last node ends here, but 1 byte is left over"),
            Misread::LeftOver(more) => {
                write!(f, "the last node ends here, but {more} bytes are left over")
            }
        }
    }
}

/// The one NaN of a model file.
const NAN: u64 = 0x7ff8_0000_0000_0000;

/// The numbers that a field may have.
fn range(field: Field, least: u64, most: u64, f: &mut fmt::Formatter<'_>) -> fmt::Result {
    let child = matches!(field, Field::Node { entry, .. } if entry == "true child");
    match (child, least <= most) {
        (true, false) => f.write_str("0, because the tree does not have two nodes after this one"),
        (true, true) => write!(f, "{least} to {most}, or 0 for a leaf"),
        (false, _) => write!(f, "{least} to {most}"),
    }
}
