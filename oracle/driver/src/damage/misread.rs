//! Files damaged by hand, each with the number and the place that are told, among them every kind of NaN; every cut of a file, every
//! change of one of its bytes, and every number in some of its fields.

use crate::call::calls::{Call, File};
use crate::call::fault::Fault;
use crate::damage::file::set;
use crate::judge::case::Case;
use crate::judge::fields::What;
use crate::make::golden;

/// The fields of the golden file that are changed here.
const VERSION: (What, usize) = (What::Version, 3);
const FEATURES: (What, usize) = (What::Features, 5);
const TREES: (What, usize) = (What::Trees, 7);
const NODES: (What, usize) = (What::Nodes, 9);
const VALUE: (What, usize) = (What::Value, 13);
const CHILD: (What, usize) = (What::TrueChild, 21);
const FEATURE: (What, usize) = (What::Feature, 25);
const THRESHOLD: (What, usize) = (What::Threshold, 27);
const SCORE: (What, usize) = (What::Score, 35);
/// The true children of node 2 and of the only node of tree 1, and the number of nodes of tree 1.
const SECOND_CHILD: (What, usize) = (What::TrueChild, 63);
const LONE_CHILD: (What, usize) = (What::TrueChild, 121);
const LATER_NODES: (What, usize) = (What::Nodes, 109);

const END: usize = golden::FILE.len();

/// Collects changed copies of the golden file.
struct Files(Vec<Case>);

impl Files {
    /// With what is told by hand, and with what is found by definition.
    fn add(&mut self, [number, place]: [usize; 2], change: impl FnOnce(&mut File)) {
        let mut file = golden::file();
        change(&mut file);
        self.0.push(Case::file(file.clone()));
        self.0.push(Case {
            call: Call::File(file),
            fault: Fault([number as u32, 0, place as u32, 0]),
        });
    }

    /// A field with another number, at which the file is refused or not.
    fn says(&mut self, number: usize, (what, at): (What, usize), says: u64) {
        let place = if number == 0 { 0 } else { at };
        self.add([number, place], |file| set(&mut file.bytes, at, what, says));
    }
}

pub fn cases() -> Vec<Case> {
    let mut files = Files(Vec::new());
    files.add([0, 0], |_| ());
    header(&mut files);
    sizes(&mut files);
    nodes(&mut files);
    two(&mut files);
    rooms(&mut files);
    files.0
}

fn header(files: &mut Files) {
    let short: [(&[u8], [usize; 2]); 9] = [
        (b"", [14, 0]),
        (b"R", [14, 0]),
        (b"xy", [14, 0]),
        (b"RGf", [15, 0]),
        (b"FGR", [15, 0]),
        (b"RGF", [14, 3]),
        (b"RGF\x02", [14, 3]),
        (b"RGF\x02\x00", [15, 3]),
        (b"RGF\x01\x00\x00", [14, 5]),
    ];
    for (bytes, told) in short {
        files.add(told, |file| file.bytes = bytes.to_vec());
    }
    for version in [0, 2, 256, 257, 65_535] {
        files.says(15, VERSION, version);
    }
    for field in [FEATURES, TREES] {
        for size in [0, 1_025, 65_535] {
            files.says(16, field, size);
        }
    }
    files.says(0, FEATURES, 1_024);
    // one feature, of which the first split has the second
    files.add([16, 25], |file| set(&mut file.bytes, 5, What::Features, 1));
    // the file of fewer trees ends sooner, and of more trees later
    for (trees, told) in [
        (1, [17, 109]),
        (2, [17, 125]),
        (4, [14, END]),
        (1_024, [14, END]),
    ] {
        files.add(told, |file| set(&mut file.bytes, 7, What::Trees, trees));
    }
}

/// Numbers of nodes: none, and so many that they cannot be counted in 32 bits.
fn sizes(files: &mut Files) {
    let most = u64::from(u32::MAX);
    files.says(16, NODES, 0);
    files.says(16, LATER_NODES, 0);
    // after the five nodes of the first tree
    for nodes in [most, most - 4] {
        files.says(16, LATER_NODES, nodes);
    }
    // these can be, but the file ends
    for ((what, at), nodes) in [(NODES, most), (LATER_NODES, most - 5)] {
        files.add([14, at + 4], |file| {
            set(&mut file.bytes, at, what, nodes);
            file.bytes.truncate(at + 4);
        });
    }
    // two nodes are left of the first tree, and the second has a child in the first one's place
    files.add([16, 21], |file| set(&mut file.bytes, 9, What::Nodes, 2));
    files.add([16, 63], |file| set(&mut file.bytes, 9, What::Nodes, 4));
}

fn nodes(files: &mut Files) {
    // above node 0, and the next one below 5
    for child in [2, 3] {
        files.says(0, CHILD, child);
    }
    for child in [4, 5, u64::from(u32::MAX) - 1, u64::from(u32::MAX)] {
        files.says(16, CHILD, child);
    }
    for child in [1, 2, 4, 1 << 16 | 3, 1 << 31 | 3] {
        files.says(16, SECOND_CHILD, child);
    }
    files.says(16, LONE_CHILD, 1);
    files.says(0, FEATURE, 0);
    for feature in [2, 257, 65_535] {
        files.says(16, FEATURE, feature);
    }
    for field in [VALUE, THRESHOLD, SCORE] {
        nans(files, field);
    }
}

/// Every kind of NaN: each sign, with each bit of the payload alone and with all of them. Only one is read; infinities are no NaNs.
fn nans(files: &mut Files, field: (What, usize)) {
    let infinity = f64::INFINITY.to_bits();
    for sign in [0, 1 << 63] {
        files.says(0, field, sign | infinity);
        let payloads = (0..52).map(|bit| 1 << bit);
        let more = [(1 << 52) - 1, (1 << 51) - 1, 1 << 51 | 1, 3 << 50];
        for payload in payloads.chain(more) {
            let pattern = sign | infinity | payload;
            let number = if pattern == 0x7FF8_0000_0000_0000 {
                0
            } else {
                16
            };
            files.says(number, field, pattern);
        }
    }
}

/// Two faults: the first in the order of fields is told, then bytes left over, then rooms.
fn two(files: &mut Files) {
    files.add([15, 0], |file| {
        (file.bytes[0], file.bytes[3]) = (b'r', 2);
        file.bytes.truncate(5);
    });
    files.add([15, 3], |file| file.bytes[3..7].fill(0));
    files.add([16, 5], |file| file.bytes[5..13].fill(0));
    files.add([16, 7], |file| file.bytes[7..13].fill(0));
    // a NaN before a child, a child before a feature, a feature before the end
    files.add([16, 13], |file| file.bytes[13..25].fill(0xFF));
    files.add([16, 21], |file| file.bytes[21..35].fill(0xFF));
    files.add([16, 25], |file| {
        file.bytes[25] = 2;
        file.bytes.truncate(27);
    });
    files.add([14, 25], |file| {
        file.bytes[25] = 2;
        file.bytes.truncate(26);
    });
    files.add([17, END], |file| {
        file.bytes.push(0);
        (file.nodes, file.starts) = ([0; 6], 0);
    });
    files.add([14, END - 4], |file| {
        file.bytes.pop();
        (file.nodes, file.starts) = ([0; 6], 0);
    });
    files.add([17, END], |file| file.bytes.extend_from_within(..));
}

fn rooms(files: &mut Files) {
    for column in 0..6 {
        files.add([6, 0], |file| file.nodes[column] -= 1);
        files.add([6, 0], |file| file.nodes[column] = 0);
        files.add([0, 0], |file| file.nodes[column] += 1);
    }
    files.add([6, 0], |file| file.starts -= 1);
    files.add([6, 0], |file| file.starts = 0);
    files.add([0, 0], |file| file.starts += 2);
    files.add([0, 0], |file| (file.nodes, file.starts) = ([14; 6], 7));
}

/// Every cut of the golden file, with the place by the text beside it; every other byte at every place; and every number of features and
/// trees, and in the first feature.
pub fn each(mut each: impl FnMut(Case)) {
    let mut files = Files(Vec::new());
    for length in 0..END {
        let mut starts = golden::fields().into_iter().map(|(place, _)| place);
        let place = starts.rfind(|place| *place <= length).unwrap_or(0);
        files.add([14, place], |file| file.bytes.truncate(length));
    }
    for byte in 0..=u8::MAX {
        files.add([17, END], |file| file.bytes.push(byte));
    }
    files.0.drain(..).for_each(&mut each);
    for at in 0..END {
        for byte in (0..=u8::MAX).filter(|byte| *byte != golden::FILE[at]) {
            let mut file = golden::file();
            file.bytes[at] = byte;
            each(Case::file(file));
        }
    }
    for (what, at) in [FEATURES, TREES, FEATURE] {
        for number in 0..=u16::MAX {
            let mut file = golden::file();
            set(&mut file.bytes, at, what, u64::from(number));
            each(Case::file(file));
        }
    }
}
