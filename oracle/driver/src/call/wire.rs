//! Converts calls to numbers and back. The same description of the fields is used in both directions.

use crate::call::calls::{Call, File, Fit, READERS, Read, Reader, Table};
use crate::call::outcome::bits;

/// Either writes the fields as numbers, or fills them from numbers.
pub enum Wire<'a> {
    Down(Vec<u64>),
    Up(&'a [u64]),
}

impl Wire<'_> {
    fn number(&mut self, field: &mut u64) {
        match self {
            Wire::Down(numbers) => numbers.push(*field),
            Wire::Up(numbers) => {
                *field = numbers[0];
                *numbers = &numbers[1..];
            }
        }
    }

    fn via<T>(&mut self, field: &mut T, down: impl Fn(&T) -> u64, up: impl Fn(u64) -> T) {
        let mut number = down(field);
        self.number(&mut number);
        *field = up(number);
    }

    fn flag(&mut self, field: &mut bool) {
        self.via(field, |f| u64::from(*f), |n| n != 0);
    }

    fn size(&mut self, field: &mut usize) {
        self.via(field, |f| *f as u64, |n| n as usize);
    }

    fn small(&mut self, field: &mut u32) {
        self.via(field, |f| u64::from(*f), |n| n as u32);
    }

    fn float(&mut self, field: &mut f64) {
        self.via(field, |f| bits(*f), f64::from_bits);
    }

    /// The length, then the entries.
    fn list<T: Clone + Default>(&mut self, list: &mut Vec<T>, one: fn(&mut Self, &mut T)) {
        let mut length = list.len();
        self.size(&mut length);
        list.resize(length, T::default());
        for entry in list {
            one(self, entry);
        }
    }

    fn floats(&mut self, list: &mut Vec<f64>) {
        self.list(list, Self::float);
    }

    fn smalls(&mut self, list: &mut Vec<u32>) {
        self.list(list, Self::small);
    }
}

fn fit_fields(fit: &mut Fit, w: &mut Wire) {
    w.size(&mut fit.rows);
    w.size(&mut fit.features);
    if fit.forest {
        w.size(&mut fit.trees);
    }
    // `None` is written as one more than the largest number that can be given
    w.via(
        &mut fit.limit,
        |limit| limit.map_or(65_536, u64::from),
        |n| u16::try_from(n).ok(),
    );
    w.small(&mut fit.least_leaf);
    w.small(&mut fit.least_split);
    w.via(
        &mut fit.tried,
        |tried| tried.map_or(1 << 32, u64::from),
        |n| u32::try_from(n).ok(),
    );
    w.flag(&mut fit.random);
    w.flag(&mut fit.lower);
    w.floats(&mut fit.x);
    w.floats(&mut fit.y);
    w.floats(&mut fit.weights);
    w.smalls(&mut fit.counts);
    w.smalls(&mut fit.listings);
    w.smalls(&mut fit.words);
    w.floats(&mut fit.thresholds);
    if fit.forest {
        w.list(&mut fit.word_starts, Wire::number);
        w.list(&mut fit.threshold_starts, Wire::number);
    }
    fit.rooms.nodes.iter_mut().for_each(|length| w.size(length));
    if fit.forest {
        w.size(&mut fit.rooms.starts);
        fit.rooms.reports.iter_mut().for_each(|l| w.size(l));
    }
    fit.rooms.work.iter_mut().for_each(|length| w.size(length));
}

fn table_fields(table: &mut Table, w: &mut Wire) {
    w.floats(&mut table.value);
    w.smalls(&mut table.feature);
    w.floats(&mut table.threshold);
    w.floats(&mut table.score);
    w.smalls(&mut table.true_child);
    w.smalls(&mut table.false_child);
}

fn node_fields(read: &mut Read, w: &mut Wire) {
    w.size(&mut read.features);
    table_fields(&mut read.table, w);
    w.size(&mut read.node);
}

fn read_fields(read: &mut Read, w: &mut Wire) {
    if read.reader == Reader::Node {
        return node_fields(read, w);
    }
    w.size(&mut read.rows);
    w.size(&mut read.features);
    w.size(&mut read.trees);
    w.floats(&mut read.x);
    w.smalls(&mut read.counts);
    w.smalls(&mut read.listings);
    table_fields(&mut read.table, w);
    w.smalls(&mut read.starts);
    w.float(&mut read.root_mass);
    w.floats(&mut read.targets);
    w.floats(&mut read.means);
    w.size(&mut read.out);
}

fn file_fields(file: &mut File, w: &mut Wire) {
    w.list(&mut file.bytes, |w, byte| {
        w.via(byte, |b| u64::from(*b), |n| n as u8);
    });
    file.nodes.iter_mut().for_each(|length| w.size(length));
    w.size(&mut file.starts);
}

/// 1 for the fit of a tree, 2 for that of a forest, from 3 on the readers in the order of `READERS`, and from 14 on the calls about
/// files, which the list does not have.
pub fn kind(call: &Call) -> u64 {
    match call {
        Call::Fit(fit) => 1 + u64::from(fit.forest),
        Call::File(_) => 16,
        Call::Read(read) if read.reader == Reader::ModelSize => 14,
        Call::Read(read) if read.reader == Reader::WriteModel => 15,
        Call::Read(read) => {
            let place = READERS.iter().position(|reader| *reader == read.reader);
            3 + place.expect("a reader of the list") as u64
        }
    }
}

pub fn down(call: &Call) -> Vec<u64> {
    let mut wire = Wire::Down(Vec::new());
    match call.clone() {
        Call::Fit(mut fit) => fit_fields(&mut fit, &mut wire),
        Call::Read(mut read) => read_fields(&mut read, &mut wire),
        Call::File(mut file) => file_fields(&mut file, &mut wire),
    }
    match wire {
        Wire::Down(numbers) => numbers,
        Wire::Up(_) => unreachable!("it was made to take down"),
    }
}

pub fn up(kind: u64, numbers: &[u64]) -> Call {
    let mut wire = Wire::Up(numbers);
    let call = if kind < 3 {
        let mut fit = Fit {
            forest: kind == 2,
            trees: 1,
            ..Fit::default()
        };
        fit_fields(&mut fit, &mut wire);
        Call::Fit(fit)
    } else {
        let mut read = Read {
            reader: READERS[kind as usize - 3],
            ..Read::default()
        };
        read_fields(&mut read, &mut wire);
        Call::Read(read)
    };
    assert!(
        matches!(wire, Wire::Up([])),
        "numbers left over in a case of kind {kind}"
    );
    call
}
