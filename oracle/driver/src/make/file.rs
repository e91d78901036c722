//! Valid tables to be written to a file, and the files of such tables.

use crate::call::calls::{File, Read, Reader, Table};
use crate::judge::expect;
use crate::judge::fields;
use crate::make::chance::Chance;
use crate::make::fit as make_fit;
use crate::make::floats;
use crate::make::read as make_read;

/// A valid forest for one of the two calls that take a table: in one of four the trees of a fit, in the others any, with floats of every
/// kind. There may be more room than the file needs.
pub fn table(chance: &mut Chance, reader: Reader) -> Read {
    let mut read = Read {
        reader,
        features: chance.pick(&[1, 2, 3, 256, 257, 1_024]),
        ..Read::default()
    };
    match chance.one_in(4) {
        true => grown(chance, &mut read),
        false => {
            make_read::forest(chance, &mut read);
            strange(chance, &mut read.table);
        }
    }
    if reader == Reader::WriteModel {
        read.out = bytes(&read).len() + chance.pick(&[0, 0, 1, 9]);
    }
    read
}

/// The trees of a fit.
fn grown(chance: &mut Chance, read: &mut Read) {
    let forest = chance.one_in(2);
    let fit = make_fit::fit(chance, forest, make_fit::SMALL);
    (read.features, read.trees) = (fit.features, fit.trees);
    read.starts.push(0);
    for tree in 0..fit.trees {
        let grown = expect::grow(&fit, tree).expect("made draws are good");
        let table = &mut read.table;
        for node in grown.nodes() {
            table.value.push(node.value);
            table.feature.push(node.feature);
            table.threshold.push(node.threshold);
            table.score.push(node.score);
            table.true_child.push(node.true_child);
            table.false_child.push(node.false_child);
        }
        read.starts.push(read.table.value.len() as u32);
    }
}

/// Replaces floats by any others, those that leaves do not use too.
fn strange(chance: &mut Chance, table: &mut Table) {
    for column in [&mut table.value, &mut table.threshold, &mut table.score] {
        for float in column {
            if chance.one_in(3) {
                *float = f64::from_bits(floats::pattern(chance));
            }
        }
    }
}

/// The file of a valid table.
pub fn bytes(read: &Read) -> Vec<u8> {
    fields::bytes(&fields::of(read))
}

/// The file of a valid table, with rooms that are just long enough.
pub fn exact(read: &Read) -> File {
    let nodes = read.starts[read.trees] as usize;
    File {
        bytes: bytes(read),
        nodes: [nodes; 6],
        starts: read.trees + 1,
    }
}

/// Some rooms longer than the model.
pub fn longer(chance: &mut Chance, file: &mut File) {
    let mut more = || chance.pick(&[0, 0, 0, 1, 3]);
    file.nodes = file.nodes.map(|length| length + more());
    file.starts += more();
}
