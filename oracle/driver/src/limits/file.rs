//! Files at the limits of features, trees and nodes.

use crate::call::calls::{File, Read, Reader};
use crate::judge::case::Case;
use crate::make::chance::Chance;
use crate::make::file as make_file;
use crate::make::read as make_read;

const MOST: usize = 1_024;
/// The largest tree that a fit can grow.
const NODES: usize = 131_069;

pub fn each(chance: &mut Chance, mut hold: impl FnMut(Case)) {
    over(chance, [MOST, MOST], 5, &mut hold);
    over(chance, [1, MOST], 1, &mut hold);
    over(chance, [MOST, 1], NODES, &mut hold);
    over(chance, [2, 3], 22_000, &mut hold);
}

/// A forest of trees with so many nodes: its size, its file in a room that is just long enough and in one that is too short by one, and
/// this file read. Then the file with a byte more, a byte less, another last number, and with rooms too short by one.
fn over(
    chance: &mut Chance,
    [features, trees]: [usize; 2],
    nodes: usize,
    hold: &mut impl FnMut(Case),
) {
    let mut read = Read {
        reader: Reader::ModelSize,
        features,
        trees,
        starts: vec![0],
        ..Read::default()
    };
    for tree in 1..=trees {
        make_read::join(&mut read.table, make_read::tree(chance, nodes, features, 0));
        read.starts.push((tree * nodes) as u32);
    }
    hold(Case::read(read.clone(), 0));
    read.reader = Reader::WriteModel;
    let file = make_file::exact(&read);
    for (out, fault) in [(file.bytes.len(), 0), (file.bytes.len() - 1, 6)] {
        read.out = out;
        hold(Case::read(read.clone(), fault));
    }
    changed(&file, hold);
}

fn changed(file: &File, hold: &mut impl FnMut(Case)) {
    let changes: [fn(&mut File); 6] = [
        |_| (),
        |file| file.bytes.push(0),
        |file| file.bytes.truncate(file.bytes.len() - 1),
        // the last node, which is a leaf, has a child
        |file| {
            let last = file.bytes.len() - 4;
            file.bytes[last] = 1;
        },
        |file| file.nodes[3] -= 1,
        |file| file.starts -= 1,
    ];
    for change in changes {
        let mut file = file.clone();
        change(&mut file);
        hold(Case::file(file));
    }
}
