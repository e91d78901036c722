//! A model as a file: how many bytes it has, writing it, and reading one.

use crate::calls::ModelAnswer;
use crate::checks::{features_in_range, trees_in_range};
use crate::fits::write;
use crate::growth::Record;
use crate::rooms::{ModelRooms, Table};
use crate::tables::{Kind, Node, check_forest, node_at, tree_part};

const MARK: [u8; 3] = *b"RGF";
const VERSION: u16 = 1;
/// The one NaN that is written and read.
const NAN: u64 = 0x7FF8_0000_0000_0000;

fn float_bytes(float: f64) -> [u8; 8] {
    let pattern = if float.is_nan() { NAN } else { float.to_bits() };
    pattern.to_le_bytes()
}

fn node_bytes(node: &Node) -> Vec<u8> {
    let mut bytes = float_bytes(node.value).to_vec();
    match node.kind {
        Kind::Leaf => bytes.extend(0_u32.to_le_bytes()),
        Kind::Split(cut) => {
            bytes.extend(cut.true_child.to_le_bytes());
            bytes.extend((cut.feature as u16).to_le_bytes());
            bytes.extend(float_bytes(cut.threshold));
            bytes.extend(float_bytes(cut.score));
        }
    }
    bytes
}

/// The file of a valid table.
fn file_of(features: usize, trees: usize, table: &Table, starts: &[u32]) -> Vec<u8> {
    let mut bytes = MARK.to_vec();
    bytes.extend(VERSION.to_le_bytes());
    bytes.extend((features as u16).to_le_bytes());
    bytes.extend((trees as u16).to_le_bytes());
    for tree in 0..trees {
        let part = tree_part(table, starts, tree);
        bytes.extend((part.room() as u32).to_le_bytes());
        bytes.extend((0..part.room()).flat_map(|number| node_bytes(&node_at(&part, number))));
    }
    bytes
}

/// The refusal, and how many bytes the file of a forest has: refusals 1, 6, 8. Nothing is written, so they are only counted.
pub fn model_size(features: usize, trees: usize, table: &Table, starts: &[u32]) -> (u32, usize) {
    let refusal = check_forest(features, trees, table, starts);
    if refusal != 0 {
        return (refusal, 0);
    }
    let nodes = starts[trees] as usize;
    let is_split = |number: &usize| matches!(node_at(table, *number).kind, Kind::Split(_));
    let splits = (0..nodes).filter(is_split).count();
    (0, 9 + 4 * trees + 12 * nodes + 18 * splits)
}

/// Writes the file of a forest to the front of a room that may be longer: refusals 1, 6, 8, then 6 for the room. The second number
/// says how many bytes were written.
pub fn write_model(
    features: usize,
    trees: usize,
    table: &Table,
    starts: &[u32],
    out: &mut [u8],
) -> (u32, usize) {
    let refusal = check_forest(features, trees, table, starts);
    if refusal != 0 {
        return (refusal, 0);
    }
    let file = file_of(features, trees, table, starts);
    match out.get_mut(..file.len()) {
        None => (6, 0),
        Some(front) => {
            front.copy_from_slice(&file);
            (0, file.len())
        }
    }
}

/// Why a file is not read: the number of the refusal, and the byte at which what is refused begins.
struct Misread {
    number: u32,
    place: usize,
}

/// What a file says.
struct Model {
    features: u64,
    trees: Vec<Vec<Record>>,
}

/// A file, and the place of its next field.
struct Cursor<'a> {
    file: &'a [u8],
    at: usize,
}

impl Cursor<'_> {
    fn wrong(&self, number: u32) -> Misread {
        Misread {
            number,
            place: self.at,
        }
    }

    /// A number of so many bytes, the least first: the file may end before the field does, and only then may the number fail its test.
    fn field<const BYTES: usize>(
        &mut self,
        number: u32,
        passes: impl FnOnce(u64) -> bool,
    ) -> Result<u64, Misread> {
        let Some(bytes) = self.file[self.at..].first_chunk::<BYTES>() else {
            return Err(self.wrong(14));
        };
        let mut all = [0; 8];
        all[..BYTES].copy_from_slice(bytes);
        let says = u64::from_le_bytes(all);
        if !passes(says) {
            return Err(self.wrong(number));
        }
        self.at += BYTES;
        Ok(says)
    }

    fn float(&mut self) -> Result<f64, Misread> {
        let good = |pattern: u64| !f64::from_bits(pattern).is_nan() || pattern == NAN;
        self.field::<8>(16, good).map(f64::from_bits)
    }

    /// A node of a tree of so many nodes. The false child is the number after the true child.
    fn node(&mut self, features: u64, nodes: u64, number: u64) -> Result<Record, Misread> {
        let value = self.float()?;
        let inside = |child: u64| child == 0 || (child > number && child + 1 < nodes);
        let true_child = self.field::<4>(16, inside)? as u32;
        if true_child == 0 {
            return Ok(Record {
                value,
                ..Record::default()
            });
        }
        Ok(Record {
            value,
            feature: self.field::<2>(16, |feature| feature < features)? as u32,
            threshold: self.float()?,
            score: self.float()?,
            true_child,
            false_child: true_child + 1,
        })
    }

    /// A tree that comes after so many nodes of other trees.
    fn tree(&mut self, features: u64, before: u64) -> Result<Vec<Record>, Misread> {
        let countable = |nodes: u64| nodes >= 1 && before + nodes <= u64::from(u32::MAX);
        let nodes = self.field::<4>(16, countable)?;
        // a node at a time: the file may say that there are more than memory can hold
        let mut tree = Vec::new();
        for number in 0..nodes {
            tree.push(self.node(features, nodes, number)?);
        }
        Ok(tree)
    }

    fn model(&mut self) -> Result<Model, Misread> {
        let mark = |says: u64| says.to_le_bytes()[..3] == MARK;
        self.field::<3>(15, mark)?;
        self.field::<2>(15, |version| version == u64::from(VERSION))?;
        let features = self.field::<2>(16, |features| features_in_range(features as usize))?;
        let trees = self.field::<2>(16, |trees| trees_in_range(trees as usize))?;
        let mut model = Model {
            features,
            trees: Vec::new(),
        };
        let mut nodes = 0;
        for _ in 0..trees {
            let tree = self.tree(features, nodes)?;
            nodes += tree.len() as u64;
            model.trees.push(tree);
        }
        match self.file.len() - self.at {
            0 => Ok(model),
            _ => Err(self.wrong(17)),
        }
    }
}

/// Reads a forest from all bytes of a file: refusals 14, 15 and 16 in the order of the fields, then 17, then 6. The rooms may be longer
/// than the forest, and a refusal leaves them as they are.
pub fn read_model(file: &[u8], rooms: &mut ModelRooms) -> ModelAnswer {
    let refused = |number: u32, place: usize| ModelAnswer {
        number,
        place,
        ..ModelAnswer::default()
    };
    let model = match (Cursor { file, at: 0 }).model() {
        Ok(model) => model,
        Err(misread) => return refused(misread.number, misread.place),
    };
    let nodes: usize = model.trees.iter().map(Vec::len).sum();
    if rooms.nodes.room() < nodes || rooms.starts.len() <= model.trees.len() {
        return refused(6, 0);
    }
    let mut start = 0;
    rooms.starts[0] = 0;
    for (tree, records) in model.trees.iter().enumerate() {
        write(records, &mut rooms.nodes, start);
        start += records.len();
        rooms.starts[tree + 1] = start as u32;
    }
    ModelAnswer {
        number: 0,
        place: 0,
        features: model.features as u32,
        trees: model.trees.len() as u32,
        nodes: nodes as u32,
    }
}
