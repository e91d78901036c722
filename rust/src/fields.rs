//! Walks through the fields of a model file to the one that the library refused, and says what it is and what it holds.

use crate::limits::{MAX_FEATURES, MAX_TREES};
use crate::misread::{Field, Misread, ModelFault};

/// The least and the greatest number that a field may have.
type Range = (u64, u64);

/// Of a field that is no number to compare.
const ANY: Range = (0, u64::MAX);

struct Walk<'a> {
    bytes: &'a [u8],
    /// Where the next field begins.
    at: usize,
    /// Where the walk ends.
    place: usize,
}

/// What is wrong at a place of a model file. The walk ends there, or where the file does.
pub(crate) fn fault(bytes: &[u8], place: usize) -> ModelFault {
    let mut walk = Walk {
        bytes,
        at: 0,
        place,
    };
    match walk.all() {
        Err(fault) => fault,
        Ok(()) => ModelFault {
            place: walk.at,
            field: Field::End,
            breach: Misread::LeftOver(bytes.len() - walk.at),
        },
    }
}

impl Walk<'_> {
    /// Takes the number of a field, unless the walk ends there.
    fn take(&mut self, field: Field, (least, most): Range) -> Result<u64, ModelFault> {
        let (place, rest) = (self.at, &self.bytes[self.at..]);
        let wrong = |breach| ModelFault {
            place,
            field,
            breach,
        };
        let Some(own) = rest.get(..field.length()) else {
            let bytes = self.bytes.len();
            return Err(wrong(Misread::Ends { bytes }));
        };
        let is = own
            .iter()
            .rfold(0, |higher, byte| higher << 8 | u64::from(*byte));
        if place < self.place {
            self.at += own.len();
            return Ok(is);
        }
        Err(wrong(match (field, own) {
            (Field::Mark, [r, g, f]) => Misread::Mark([*r, *g, *f]),
            (Field::Version, [low, high]) => Misread::Version(u16::from_le_bytes([*low, *high])),
            _ if own.len() == 8 => Misread::Nan(is),
            _ => Misread::Number { is, least, most },
        }))
    }

    fn all(&mut self) -> Result<(), ModelFault> {
        self.take(Field::Mark, ANY)?;
        self.take(Field::Version, ANY)?;
        let features = self.take(Field::Features, (1, MAX_FEATURES as u64))?;
        let trees = self.take(Field::Trees, (1, MAX_TREES as u64))?;
        let mut left = u64::from(u32::MAX);
        for tree in 0..trees as usize {
            let nodes = self.tree(tree, features, left)?;
            left = left.saturating_sub(nodes);
        }
        Ok(())
    }

    /// A tree of at most so many nodes. Returns how many it has.
    fn tree(&mut self, tree: usize, features: u64, most: u64) -> Result<u64, ModelFault> {
        let nodes = self.take(Field::Nodes { tree }, (1, most))?;
        for node in 0..nodes as usize {
            self.node(tree, node, nodes, features)?;
        }
        Ok(nodes)
    }

    /// A node of a tree that has so many.
    fn node(
        &mut self,
        tree: usize,
        node: usize,
        nodes: u64,
        features: u64,
    ) -> Result<(), ModelFault> {
        let field = |entry| Field::Node { tree, node, entry };
        self.take(field("value"), ANY)?;
        let children = (node as u64 + 1, nodes.saturating_sub(2));
        if self.take(field("true child"), children)? != 0 {
            self.take(field("feature"), (0, features.saturating_sub(1)))?;
            self.take(field("threshold"), ANY)?;
            self.take(field("score"), ANY)?;
        }
        Ok(())
    }
}
