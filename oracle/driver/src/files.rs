//! What must hold of files whatever a judge says: the golden file is the file of its table, what was written is read back, and what was
//! read is written again.

use crate::call::calls::{Call, File, Read, Reader, Table};
use crate::call::outcome::bits;
use crate::damage::file as damage_file;
use crate::judge::case::Case;
use crate::judge::fields;
use crate::judge::library::Library;
use crate::judge::run;
use crate::make::chance::Chance;
use crate::make::file as make_file;
use crate::make::golden;
use crate::tally::Tally;

/// The text beside the golden file has its bytes at their places; and the library, the second judge and the definition write the file
/// from its table and read it.
pub fn golden(tally: &mut Tally) {
    let mut file: Vec<u8> = Vec::new();
    let in_place = golden::fields().iter().all(|(place, bytes)| {
        let here = *place == file.len();
        file.extend(bytes);
        here
    });
    tally.told(in_place && file == golden::FILE, || {
        "the text beside the golden file".to_string()
    });
    let written = (Case::read(golden::table(), 0), golden::written());
    let read = (Case::file(golden::file()), golden::read());
    for (case, left) in [written, read] {
        tally.hold(&case);
        let same = case.expected() == left.encode();
        tally.told(same, || format!("the golden file: {}", case.call_line()));
    }
}

/// `count` tables and as many damaged files.
pub fn hold(tally: &mut Tally, chance: &mut Chance, count: usize) {
    for _ in 0..count {
        let read = make_file::table(chance, Reader::WriteModel);
        let same = read_back(tally.library, &read);
        tally.told(same, || format!("the file of {read:?}"));
        let mut file = make_file::exact(&read);
        let places = fields::places(&file.bytes);
        damage_file::damage(chance, &mut file, &places);
        let same = written_again(tally.library, &file);
        tally.told(same, || format!("what is read from {file:?}"));
    }
}

/// A library's file of a valid table, in a room that is just long enough.
fn written(library: &dyn Library, read: &Read) -> Option<Vec<u8>> {
    let as_told = |reader: Reader, out: usize| {
        let read = Read {
            reader,
            out,
            ..read.clone()
        };
        run::run(library, &Call::Read(read))
    };
    let size = as_told(Reader::ModelSize, 0).told;
    let left = as_told(Reader::WriteModel, *size.get(1)? as usize);
    let bytes = left.rooms[0].entries.iter().map(|byte| *byte as u8);
    (size[0] == 0 && left.told == size).then(|| bytes.collect())
}

/// What a library reads from a file, as a table with nothing after it.
fn told(library: &dyn Library, file: &File) -> Option<Read> {
    let left = run::run(library, &Call::File(file.clone()));
    let [0, 0, features, trees, nodes] = left.told[..] else {
        return None;
    };
    let column = |room: usize| left.rooms[room].entries[..nodes as usize].iter();
    let floats = |room: usize| column(room).map(|entry| f64::from_bits(*entry)).collect();
    let numbers = |room: usize| column(room).map(|entry| *entry as u32).collect();
    let starts = left.rooms[6].entries[..=trees as usize].iter();
    Some(Read {
        features: features as usize,
        trees: trees as usize,
        table: Table {
            value: floats(0),
            feature: numbers(1),
            threshold: floats(2),
            score: floats(3),
            true_child: numbers(4),
            false_child: numbers(5),
        },
        starts: starts.map(|start| *start as u32).collect(),
        ..Read::default()
    })
}

/// All six entries of a node.
fn entries(read: &Read, node: usize) -> [u64; 6] {
    let t = &read.table;
    let number = |column: &[u32]| u64::from(column[node]);
    [
        bits(t.value[node]),
        number(&t.feature),
        bits(t.threshold[node]),
        bits(t.score[node]),
        number(&t.true_child),
        number(&t.false_child),
    ]
}

/// Those that a file has: of a leaf only the value.
fn kept(read: &Read, node: usize) -> [u64; 6] {
    match entries(read, node) {
        [value, _, _, _, 0, 0] => [value, 0, 0, 0, 0, 0],
        split => split,
    }
}

fn gives_back(read: &Read, back: &Read) -> bool {
    let sizes = |read: &Read| (read.features, read.trees);
    let nodes = read.starts[read.trees] as usize;
    sizes(read) == sizes(back)
        && read.starts[..=read.trees] == back.starts
        && (0..nodes).all(|node| entries(back, node) == kept(read, node))
}

/// Reading what was written gives the table back, and writing that gives the same file. The rooms are made by the length of the table.
fn read_back(library: &dyn Library, read: &Read) -> bool {
    let Some(bytes) = written(library, read) else {
        return false;
    };
    let file = File {
        bytes,
        ..make_file::exact(read)
    };
    let Some(back) = told(library, &file) else {
        return false;
    };
    gives_back(read, &back) && written(library, &back) == Some(file.bytes)
}

/// If a file is read, writing what was read gives the same file.
fn written_again(library: &dyn Library, file: &File) -> bool {
    match told(library, file) {
        None => true,
        Some(read) => written(library, &read).as_ref() == Some(&file.bytes),
    }
}
