//! Damaged files: cut short, continued, or with other bytes or numbers in them; and rooms that are too short.

use crate::call::calls::{File, Reader};
use crate::judge::case::Case;
use crate::judge::fields::{self, What};
use crate::make::chance::Chance;
use crate::make::file as make_file;
use crate::make::floats;

/// `count` files, each damaged in one to three ways. A file is damaged anew some times: it takes longer to make than to damage.
pub fn each(chance: &mut Chance, count: usize, mut each: impl FnMut(Case)) {
    let mut good = File::default();
    let mut places = Vec::new();
    for number in 0..count {
        if number % 32 == 0 {
            good = make_file::exact(&make_file::table(chance, Reader::WriteModel));
            places = fields::places(&good.bytes);
        }
        let mut file = good.clone();
        make_file::longer(chance, &mut file);
        for _ in 0..chance.pick(&[1, 1, 1, 2, 3]) {
            damage(chance, &mut file, &places);
        }
        each(Case::file(file));
    }
}

/// Damages a file, whose fields are at these places if it was not damaged before.
pub fn damage(chance: &mut Chance, file: &mut File, places: &[(What, usize)]) {
    let bytes = &mut file.bytes;
    let at = chance.below(bytes.len().max(1));
    match chance.below(16) {
        0 | 1 => bytes.truncate(at),
        2 | 3 => append(chance, bytes),
        // what follows is then read at another place
        4 if at < bytes.len() => drop(bytes.remove(at)),
        5 => bytes.insert(at, chance.pick(&[0, 1, 0xFF])),
        6 if at < bytes.len() => bytes[at] ^= 1 << chance.below(8),
        7 if at < bytes.len() => bytes[at] = chance.word() as u8,
        8 => rooms(chance, file),
        _ => {
            let (what, at) = chance.pick(places);
            if at + what.width() <= bytes.len() {
                let says = other(chance, what, number(&bytes[at..at + what.width()]));
                set(bytes, at, what, says);
            }
        }
    }
}

fn number(bytes: &[u8]) -> u64 {
    let mut all = [0; 8];
    all[..bytes.len()].copy_from_slice(bytes);
    u64::from_le_bytes(all)
}

/// Puts a number into a field.
pub fn set(bytes: &mut [u8], at: usize, what: What, says: u64) {
    bytes[at..at + what.width()].copy_from_slice(&says.to_le_bytes()[..what.width()]);
}

/// Another number for a field, at or next to the limits of such fields, or near the one in it.
fn other(chance: &mut Chance, what: What, says: u64) -> u64 {
    if what.float() {
        return floats::pattern(chance);
    }
    let near = chance.below(8) as u64;
    chance.pick(&[
        near,
        0,
        says.wrapping_add(1),
        says.wrapping_sub(1),
        says.wrapping_add(near),
        says.swap_bytes() >> (64 - 8 * what.width()),
        says | 1 << (8 * what.width() - 1),
        1_024 + near % 2,
        u64::from(u32::MAX) - near,
        65_535 + near,
    ])
}

fn append(chance: &mut Chance, bytes: &mut Vec<u8>) {
    match chance.below(4) {
        0 => bytes.push(chance.pick(&[0, 9, 0xFF])),
        1 => bytes.extend(0_u32.to_le_bytes()),
        // a second file, or the last node again
        2 => bytes.extend_from_within(..),
        _ => bytes.extend_from_within(bytes.len().saturating_sub(12)..),
    }
}

/// One room or all of them too short.
fn rooms(chance: &mut Chance, file: &mut File) {
    match chance.below(9) {
        column @ 0..6 => {
            file.nodes[column] = file.nodes[column].saturating_sub(chance.within(1, 4))
        }
        6 => file.starts = file.starts.saturating_sub(chance.within(1, 4)),
        7 => (file.nodes, file.starts) = ([0; 6], 0),
        _ => file.starts = chance.below(2),
    }
}
