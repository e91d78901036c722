//! Forests and trees as model files.

use crate::columns::{Columns, Nodes, over};
use crate::explain;
use crate::forest::RandomForestRegressor;
use crate::limits::MAX_TREES;
use crate::refusal::{Cause, Refusal};
use crate::tree::DecisionTreeRegressor;
use std::error::Error;
use std::fmt;
use std::io::{self, Read, Write};
use tailboardy_sys::linked;

/// How many bytes a model file has before its first tree, and how many a leaf takes, which is the smallest node.
const HEADER: usize = 9;
const LEAF: usize = 12;

/// Why a model file was not read or written: the file itself failed, or it holds no model.
///
/// ```
/// use std::fs::File;
/// use tailboardy::{Cause, ModelError, RandomForestRegressor};
///
/// let read = RandomForestRegressor::read_model(&b"fixture,pan\n"[..]);
/// match read.unwrap_err() {
///     ModelError::Refused(refusal) => assert_eq!(refusal.cause(), Cause::Mark),
///     ModelError::Io(error) => panic!("{error}"),
/// }
/// # fn house() -> Result<RandomForestRegressor, ModelError> {
/// let forest = RandomForestRegressor::read_model(File::open("house.rgf")?)?;
/// # Ok(forest)
/// # }
/// ```
#[derive(Debug)]
pub enum ModelError {
    /// The file could not be read or written.
    Io(io::Error),
    /// What was read is not a model.
    Refused(Refusal),
}

impl RandomForestRegressor {
    /// The forest as a model file: features, trees and nodes, in bytes that the proved library writes. Reports, bags and what stands
    /// [`behind`](Self::behind) the nodes are not part of it. Every NaN is written with the same bits, and of a leaf only the value.
    ///
    /// ```
    /// use tailboardy::{DenseMatrix, RandomForestRegressor};
    ///
    /// let x = DenseMatrix::from_2d_array(&[[1.0], [2.0], [3.0], [4.0]])?;
    /// let forest = RandomForestRegressor::fit(&x, &[0.0, 0.0, 10.0, 10.0], Default::default())?;
    /// let bytes = forest.model_bytes()?;
    /// // mark, version 1, 1 feature, 100 trees
    /// assert_eq!(bytes[..9], *b"RGF\x01\x00\x01\x00\x64\x00");
    /// let again = RandomForestRegressor::from_model_bytes(&bytes)?;
    /// assert_eq!(again.model_bytes()?, bytes);
    /// # Ok::<(), tailboardy::Refusal>(())
    /// ```
    ///
    /// # Errors
    ///
    /// None is known: the library would refuse a number of features or trees that is out of range (1) and a damaged table (8), but a
    /// forest has neither.
    pub fn model_bytes(&self) -> Result<Vec<u8>, Refusal> {
        bytes(self.n_features(), self.starts(), self.nodes().columns())
    }

    /// Writes the forest as a model file; see [`model_bytes`](Self::model_bytes).
    ///
    /// ```
    /// use tailboardy::{DenseMatrix, ModelError, RandomForestRegressor};
    ///
    /// # let x = DenseMatrix::from_2d_array(&[[1.0], [2.0], [3.0], [4.0]])?;
    /// # let forest = RandomForestRegressor::fit(&x, &[0.0, 0.0, 10.0, 10.0], Default::default())?;
    /// let mut file = Vec::new();
    /// forest.write_model(&mut file)?;
    /// assert_eq!(file, forest.model_bytes()?);
    /// # Ok::<(), ModelError>(())
    /// ```
    ///
    /// # Errors
    ///
    /// [`ModelError::Io`] if it cannot be written. Part of it may be written then.
    pub fn write_model(&self, to: impl Write) -> Result<(), ModelError> {
        write(&self.model_bytes()?, to)
    }

    /// Makes a forest from a model file. It predicts, bit for bit, what the forest predicts that was written, and has the same
    /// importances and nodes; but it has no reports and no counts, and nothing [`behind`](Self::behind) its nodes, as
    /// [`from_table`](Self::from_table). The proved library reads the bytes, and refuses those that are not exactly a model.
    ///
    /// A tree that was written alone is read as a forest of one tree.
    ///
    /// ```
    /// use tailboardy::{DenseMatrix, RandomForestRegressor};
    ///
    /// let x = DenseMatrix::from_2d_array(&[[1.0], [2.0], [3.0], [4.0]])?;
    /// let forest = RandomForestRegressor::fit(&x, &[0.0, 0.0, 10.0, 10.0], Default::default())?;
    /// let mut bytes = forest.model_bytes()?;
    /// let read = RandomForestRegressor::from_model_bytes(&bytes)?;
    /// assert_eq!(read.predict(&x)?, forest.predict(&x)?);
    /// assert_eq!(read.predict_oob(&x).unwrap_err().number(), 9);
    ///
    /// bytes[5] = 0;
    /// assert_eq!(
    ///     RandomForestRegressor::from_model_bytes(&bytes).unwrap_err().to_string(),
    ///     "refusal 16 (bad field): byte 5: the number of features is 0, but must be 1 to 1024; \
    ///      the file is damaged: copy it again, or write it again"
    /// );
    /// # Ok::<(), tailboardy::Refusal>(())
    /// ```
    ///
    /// # Errors
    ///
    /// Refusal 14 if the file ends early, 15 if it does not begin with the mark and the version of a model file, 16 if a field has a
    /// number that it may not have, and 17 if bytes follow the last node. The [`Fault`](crate::Fault) says at which byte, which field that
    /// is, and what it holds.
    pub fn from_model_bytes(bytes: &[u8]) -> Result<Self, Refusal> {
        read(bytes)
    }

    /// Reads a model file to its end, unless its first bytes show that it is none; see [`from_model_bytes`](Self::from_model_bytes).
    ///
    /// ```
    /// use std::io::{self, Read};
    /// use tailboardy::{DenseMatrix, ModelError, RandomForestRegressor};
    ///
    /// # let x = DenseMatrix::from_2d_array(&[[1.0], [2.0], [3.0], [4.0]])?;
    /// # let forest = RandomForestRegressor::fit(&x, &[0.0, 0.0, 10.0, 10.0], Default::default())?;
    /// let file = forest.model_bytes()?;
    /// let read = RandomForestRegressor::read_model(&file[..])?;
    /// assert_eq!((read.n_trees(), read.nodes()), (100, forest.nodes()));
    ///
    /// // this has no end
    /// let refused = RandomForestRegressor::read_model(io::repeat(0)).unwrap_err();
    /// assert!(matches!(refused, ModelError::Refused(refusal) if refusal.number() == 15));
    /// # Ok::<(), ModelError>(())
    /// ```
    ///
    /// # Errors
    ///
    /// [`ModelError::Io`] if it cannot be read, and [`ModelError::Refused`] as `from_model_bytes`.
    pub fn read_model(mut from: impl Read) -> Result<Self, ModelError> {
        let mut bytes = Vec::new();
        from.by_ref().take(HEADER as u64).read_to_end(&mut bytes)?;
        match read(&bytes) {
            // the header alone is no model either
            Err(refusal) if refusal.cause() != Cause::FileEnds => return Err(refusal.into()),
            _ => from.read_to_end(&mut bytes)?,
        };
        Ok(read(&bytes)?)
    }
}

impl DecisionTreeRegressor {
    /// The tree as a model file, which is that of a forest of one tree: [`RandomForestRegressor::from_model_bytes`] reads it. The report is
    /// not part of it.
    ///
    /// ```
    /// use tailboardy::{DecisionTreeRegressor, DenseMatrix, RandomForestRegressor};
    ///
    /// let x = DenseMatrix::from_2d_array(&[[1.0], [2.0]])?;
    /// let tree = DecisionTreeRegressor::fit(&x, &[5.0, 7.0], Default::default())?;
    /// let bytes = tree.model_bytes()?;
    /// // the header, a number of nodes, a split and two leaves
    /// assert_eq!(bytes.len(), 9 + 4 + 30 + 12 + 12);
    ///
    /// let forest = RandomForestRegressor::from_model_bytes(&bytes)?;
    /// assert_eq!(forest.predict(&x)?, tree.predict(&x)?);
    /// let again = DecisionTreeRegressor::from_table(forest.n_features(), forest.nodes().clone())?;
    /// assert_eq!(again.nodes(), tree.nodes());
    /// # Ok::<(), tailboardy::Refusal>(())
    /// ```
    ///
    /// # Errors
    ///
    /// None is known, as for [`RandomForestRegressor::model_bytes`].
    pub fn model_bytes(&self) -> Result<Vec<u8>, Refusal> {
        let view = self.tree();
        // a valid tree has fewer nodes than 2^32, because each is numbered in 32 bits
        let end = u32::try_from(view.n_nodes()).unwrap_or(u32::MAX);
        bytes(view.features, &[0, end], view.columns)
    }

    /// Writes the tree as a model file; see [`model_bytes`](Self::model_bytes).
    ///
    /// ```
    /// use tailboardy::{DecisionTreeRegressor, DenseMatrix, ModelError, RandomForestRegressor};
    ///
    /// # let x = DenseMatrix::from_2d_array(&[[1.0], [2.0]])?;
    /// # let tree = DecisionTreeRegressor::fit(&x, &[5.0, 7.0], Default::default())?;
    /// let mut file = Vec::new();
    /// tree.write_model(&mut file)?;
    /// assert_eq!(RandomForestRegressor::read_model(&file[..])?.n_trees(), 1);
    /// # Ok::<(), ModelError>(())
    /// ```
    ///
    /// # Errors
    ///
    /// [`ModelError::Io`] if it cannot be written. Part of it may be written then.
    pub fn write_model(&self, to: impl Write) -> Result<(), ModelError> {
        write(&self.model_bytes()?, to)
    }
}

fn bytes(features: usize, starts: &[u32], columns: Columns) -> Result<Vec<u8>, Refusal> {
    let trees = starts.len().saturating_sub(1);
    let refused = |number| Refusal::of(number, explain::forest(features, starts, columns));
    let told = over!(model_size(features, trees, starts; columns;));
    if told.number != 0 {
        return Err(refused(told.number));
    }
    let mut file = vec![0; told.bytes];
    match over!(write_model(features, trees, starts; columns; &mut file)).number {
        0 => Ok(file),
        number => Err(refused(number)),
    }
}

fn write(bytes: &[u8], mut to: impl Write) -> Result<(), ModelError> {
    to.write_all(bytes)?;
    Ok(to.flush()?)
}

fn read(bytes: &[u8]) -> Result<RandomForestRegressor, Refusal> {
    let most = bytes.len().saturating_sub(HEADER) / LEAF;
    let mut nodes = Nodes::zeros(most);
    let mut starts = vec![0; MAX_TREES + 1];
    let told = linked::read_model(
        &mut nodes.value,
        &mut nodes.feature,
        &mut nodes.threshold,
        &mut nodes.score,
        &mut nodes.true_child,
        &mut nodes.false_child,
        &mut starts,
        bytes,
    );
    if told.number != 0 {
        return Err(explain::model(&told, bytes));
    }
    nodes.keep(told.nodes as usize);
    starts.truncate(told.trees as usize + 1);
    let features = told.features as usize;
    Ok(RandomForestRegressor::stored(features, starts, nodes))
}

impl From<io::Error> for ModelError {
    fn from(error: io::Error) -> Self {
        ModelError::Io(error)
    }
}

impl From<Refusal> for ModelError {
    fn from(refusal: Refusal) -> Self {
        ModelError::Refused(refusal)
    }
}

impl fmt::Display for ModelError {
    fn fmt(&self, f: &mut fmt::Formatter<'_>) -> fmt::Result {
        match self {
            ModelError::Io(error) => error.fmt(f),
            ModelError::Refused(refusal) => refusal.fmt(f),
        }
    }
}

impl Error for ModelError {
    fn source(&self) -> Option<&(dyn Error + 'static)> {
        match self {
            ModelError::Io(error) => error.source(),
            ModelError::Refused(refusal) => refusal.source(),
        }
    }
}
