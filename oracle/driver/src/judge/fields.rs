//! What is expected of a model's file: a list of fields, each with its width and its test, of which one follows from another.
//! The second judge has no part in this.

use crate::call::calls::{File, Read};
use crate::call::fault::Fault;
use crate::call::outcome::bits;

/// What a field says.
#[derive(Clone, Copy, Debug, PartialEq)]
pub enum What {
    Mark,
    Version,
    Features,
    Trees,
    Nodes,
    Value,
    TrueChild,
    Feature,
    Threshold,
    Score,
}

impl What {
    /// How many bytes it has.
    pub fn width(self) -> usize {
        [3, 2, 2, 2, 4, 8, 4, 2, 8, 8][self as usize]
    }

    pub fn float(self) -> bool {
        matches!(self, What::Value | What::Threshold | What::Score)
    }
}

/// A field, and the number in it; a float is its bits.
pub type Said = (What, u64);

/// F, G, R: the first byte is the least.
const MARK: u64 = 0x46_47_52;
/// The largest pattern of an infinity without its sign, and the one NaN that is read.
const INFINITY: u64 = 0x7FF0_0000_0000_0000;
const NAN: u64 = 0x7FF8_0000_0000_0000;

/// The fields of the file of a valid table.
pub fn of(read: &Read) -> Vec<Said> {
    let (table, trees) = (&read.table, read.trees);
    let mut all = vec![
        (What::Mark, MARK),
        (What::Version, 1),
        (What::Features, read.features as u64),
        (What::Trees, trees as u64),
    ];
    for bounds in read.starts[..=trees].windows(2) {
        all.push((What::Nodes, u64::from(bounds[1] - bounds[0])));
        for node in bounds[0] as usize..bounds[1] as usize {
            let child = u64::from(table.true_child[node]);
            all.extend([
                (What::Value, bits(table.value[node])),
                (What::TrueChild, child),
            ]);
            if child != 0 {
                all.extend([
                    (What::Feature, u64::from(table.feature[node])),
                    (What::Threshold, bits(table.threshold[node])),
                    (What::Score, bits(table.score[node])),
                ]);
            }
        }
    }
    all
}

pub fn bytes(fields: &[Said]) -> Vec<u8> {
    let byte = |number: u64, place: usize| (number >> (8 * place)) as u8;
    let bytes = |(what, number): &Said| {
        let number = *number;
        (0..what.width()).map(move |place| byte(number, place))
    };
    fields.iter().flat_map(bytes).collect()
}

/// What was said so far, as far as it decides about what follows.
#[derive(Default)]
struct Told {
    features: u64,
    /// How many trees are still to come after this one, how many nodes were in those before it, and how many it has.
    trees: u64,
    before: u64,
    nodes: u64,
    /// The number of the node.
    node: u64,
}

impl Told {
    /// The number of the refusal if a field must not say this.
    fn refused(&self, (what, says): Said) -> Option<u32> {
        let bad = match what {
            What::Mark => says != MARK,
            What::Version => says != 1,
            What::Features | What::Trees => says == 0 || says > 1_024,
            What::Nodes => says == 0 || (self.before + says) >> 32 != 0,
            What::TrueChild => says != 0 && (says <= self.node || says + 2 > self.nodes),
            What::Feature => says >= self.features,
            What::Value | What::Threshold | What::Score => {
                says & (u64::MAX >> 1) > INFINITY && says != NAN
            }
        };
        let number = match what {
            What::Mark | What::Version => 15,
            _ => 16,
        };
        bad.then_some(number)
    }

    /// What follows a field, if anything does.
    fn next(&mut self, (what, says): Said) -> Option<What> {
        match what {
            What::Mark => Some(What::Version),
            What::Version => Some(What::Features),
            What::Features => {
                self.features = says;
                Some(What::Trees)
            }
            What::Trees => {
                self.trees = says - 1;
                Some(What::Nodes)
            }
            What::Nodes => {
                (self.nodes, self.node) = (says, 0);
                Some(What::Value)
            }
            What::Value => Some(What::TrueChild),
            What::TrueChild if says != 0 => Some(What::Feature),
            What::Feature => Some(What::Threshold),
            What::Threshold => Some(What::Score),
            What::TrueChild | What::Score => self.after_node(),
        }
    }

    fn after_node(&mut self) -> Option<What> {
        self.node += 1;
        if self.node < self.nodes {
            return Some(What::Value);
        }
        if self.trees == 0 {
            return None;
        }
        (self.trees, self.before) = (self.trees - 1, self.before + self.nodes);
        Some(What::Nodes)
    }
}

/// The fields of a file up to the first that is refused, and its number and place: that of the field, or of the bytes left over.
fn fields(file: &[u8]) -> (Vec<Said>, Option<(u32, usize)>) {
    let mut all = Vec::new();
    let (mut told, mut at, mut due) = (Told::default(), 0, Some(What::Mark));
    while let Some(what) = due {
        let end = at + what.width();
        if end > file.len() {
            return (all, Some((14, at)));
        }
        let least_last = file[at..end].iter().rev();
        let said = (
            what,
            least_last.fold(0, |n, byte| n * 256 + u64::from(*byte)),
        );
        if let Some(number) = told.refused(said) {
            return (all, Some((number, at)));
        }
        all.push(said);
        (at, due) = (end, told.next(said));
    }
    let left_over = (at < file.len()).then_some((17, at));
    (all, left_over)
}

/// The places of the fields of a file, as far as it is good.
pub fn places(file: &[u8]) -> Vec<(What, usize)> {
    let mut at = 0;
    let place = |(what, _): Said| {
        let here = at;
        at += what.width();
        (what, here)
    };
    fields(file).0.into_iter().map(place).collect()
}

/// What a good file says, as columns of numbers; a float is its bits.
#[derive(Default)]
pub struct Model {
    pub features: u64,
    /// value, feature, threshold, score, true child, false child
    pub columns: [Vec<u64>; 6],
    pub starts: Vec<u64>,
}

pub fn model(file: &[u8]) -> Model {
    let mut model = Model {
        starts: vec![0],
        ..Model::default()
    };
    for (what, says) in fields(file).0 {
        let nodes = model.columns[0].len();
        let mut last = |column: usize, entry: u64| model.columns[column][nodes - 1] = entry;
        match what {
            What::Mark | What::Version | What::Trees => (),
            What::Features => model.features = says,
            What::Nodes => model
                .starts
                .push(model.starts[model.starts.len() - 1] + says),
            What::Value => {
                model.columns.iter_mut().for_each(|column| column.push(0));
                model.columns[0][nodes] = says;
            }
            What::TrueChild if says == 0 => (),
            What::TrueChild => {
                last(4, says);
                last(5, says + 1);
            }
            What::Feature => last(1, says),
            What::Threshold => last(2, says),
            What::Score => last(3, says),
        }
    }
    model
}

/// What is told of a file and the rooms for it: the number of the refusal, and its place.
pub fn fault(file: &File) -> Fault {
    if let (_, Some((number, place))) = fields(&file.bytes) {
        return Fault([number, 0, place as u32, 0]);
    }
    let model = model(&file.bytes);
    let nodes = model.columns[0].len();
    let short = file.nodes.iter().any(|length| *length < nodes) || file.starts < model.starts.len();
    Fault::from(if short { 6 } else { 0 })
}
