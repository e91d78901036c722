//! The file that the repository has, byte for byte, and the table that it is the file of.

use crate::call::calls::{File, Read, Reader, Table};
use crate::call::outcome::{FILL, Outcome, Room};

pub const FILE: &[u8] = include_bytes!("../../../golden/forest.rgf");
const TEXT: &str = include_str!("../../../golden/forest.txt");

/// The place and the bytes of each field, as the text beside the file has them.
pub fn fields() -> Vec<(usize, Vec<u8>)> {
    let lines = TEXT.lines().filter(|line| !line.starts_with('#'));
    let field = |line: &str| {
        let mut columns = line.trim().split("  ");
        let mut next = || columns.next().expect("a place, bytes and what they say");
        let (place, bytes) = (next().parse().expect("a place"), next().split(' '));
        let byte = |digits| u8::from_str_radix(digits, 16).expect("two digits");
        (place, bytes.map(byte).collect())
    };
    lines.map(field).collect()
}

/// The file, with rooms that are just long enough.
pub fn file() -> File {
    File {
        bytes: FILE.to_vec(),
        nodes: [11; 6],
        starts: 4,
    }
}

/// What is read from the file: the numbers that are told, and the entries of the six columns and the starts.
pub fn read() -> Outcome {
    let (nan, inf, low) = (f64::NAN, f64::INFINITY, f64::MIN);
    let floats = |entries: [f64; 11]| Room::floats(&entries);
    let numbers = |entries: [u32; 11]| Room::numbers(&entries);
    let rooms = vec![
        floats([-4.0, -22.0, 24.5, 26.0, -0.0, nan, inf, 0.1, 0.0, low, -inf]),
        numbers([1, 0, 0, 0, 0, 0, 0, 1, 0, 0, 0]),
        floats([-0.0, 0.0, 6.85, 0.0, 0.0, 0.0, -inf, nan, 0.0, 0.0, 0.0]),
        floats([2304.0, 0.0, nan, 0.0, 0.0, 0.0, 5e-324, -1.0, 0.0, 0.0, 0.0]),
        numbers([1, 0, 3, 0, 0, 0, 3, 3, 0, 0, 0]),
        numbers([2, 0, 4, 0, 0, 0, 4, 4, 0, 0, 0]),
        Room::numbers(&[0, 5, 6, 11]),
    ];
    Outcome {
        told: vec![0, 0, 2, 3, 11],
        rooms,
    }
}

/// The table that it is written from, with NaNs of other kinds, with numbers in its leaves that are not written, and with a node and a
/// start after its last. The room is longer by two bytes.
pub fn table() -> Read {
    let quiet = f64::from_bits(0xFFF8_0000_0000_0001);
    let signalling = f64::from_bits(0x7FF0_0000_0000_0001);
    let (inf, low) = (f64::INFINITY, f64::MIN);
    let floats = |entries: [f64; 12]| entries.to_vec();
    let numbers = |entries: [u32; 12]| entries.to_vec();
    let value = [
        -4.0, -22.0, 24.5, 26.0, -0.0, quiet, inf, 0.1, 0.0, low, -inf, 7.0,
    ];
    let threshold = [
        -0.0, 1.0, 6.85, quiet, 0.0, -1.0, -inf, signalling, 2.5, 0.0, inf, 7.0,
    ];
    let score = [
        2304.0, 0.0, signalling, 3.0, quiet, 9.0, 5e-324, -1.0, 0.0, -0.0, low, 7.0,
    ];
    let table = Table {
        value: floats(value),
        feature: numbers([1, u32::MAX, 0, 5, 0, 2, 0, 1, 1, 65_536, 0, 7]),
        threshold: floats(threshold),
        score: floats(score),
        true_child: numbers([1, 0, 3, 0, 0, 0, 3, 3, 0, 0, 0, 7]),
        false_child: numbers([2, 0, 4, 0, 0, 0, 4, 4, 0, 0, 0, 7]),
    };
    Read {
        reader: Reader::WriteModel,
        features: 2,
        trees: 3,
        table,
        starts: vec![0, 5, 6, 11, 4],
        out: FILE.len() + 2,
        ..Read::default()
    }
}

/// What is then told, and the room.
pub fn written() -> Outcome {
    Outcome {
        told: vec![0, FILE.len() as u64],
        rooms: vec![Room::bytes(&[FILE, &[FILL as u8; 2]].concat())],
    }
}
