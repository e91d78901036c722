//! What a call leaves, as numbers: what it returns, and each room after it.

/// Rooms are filled with this before a call: nines, and true for flags.
pub const FILL: u64 = 9;
pub const FILL_FLOAT: f64 = 9.0;

#[derive(Clone, Debug, Default, PartialEq)]
pub struct Outcome {
    pub told: Vec<u64>,
    pub rooms: Vec<Room>,
}

/// The entries of a room, and the value of an entry that was not touched.
#[derive(Clone, Debug, PartialEq)]
pub struct Room {
    pub fill: u64,
    pub entries: Vec<u64>,
}

/// All NaNs count as equal.
pub fn bits(f: f64) -> u64 {
    if f.is_nan() {
        0x7FF8_0000_0000_0000
    } else {
        f.to_bits()
    }
}

impl Room {
    pub fn floats(entries: &[f64]) -> Self {
        Room {
            fill: FILL_FLOAT.to_bits(),
            entries: entries.iter().map(|f| bits(*f)).collect(),
        }
    }

    pub fn numbers(entries: &[u32]) -> Self {
        Room {
            fill: FILL,
            entries: entries.iter().map(|n| u64::from(*n)).collect(),
        }
    }

    pub fn bytes(entries: &[u8]) -> Self {
        Room {
            fill: FILL,
            entries: entries.iter().map(|byte| u64::from(*byte)).collect(),
        }
    }

    pub fn flags(entries: &[bool]) -> Self {
        Room {
            fill: 1,
            entries: entries.iter().map(|flag| u64::from(*flag)).collect(),
        }
    }

    /// Untouched: 1. All zero: 0. Otherwise 2, the number of entries before the untouched rest, and these entries.
    fn encode(&self, into: &mut Vec<u64>) {
        let written = self.entries.iter().rposition(|e| *e != self.fill);
        match written {
            None => into.push(1),
            Some(_) if self.entries.iter().all(|e| *e == 0) => into.push(0),
            Some(last) => {
                into.extend([2, last as u64 + 1]);
                into.extend(&self.entries[..=last]);
            }
        }
    }
}

impl Outcome {
    /// The returned numbers, then each room. Different outcomes of a call never give the same numbers.
    pub fn encode(&self) -> Vec<u64> {
        let mut numbers = self.told.clone();
        for room in &self.rooms {
            room.encode(&mut numbers);
        }
        numbers
    }
}

/// The entries that were written in each encoded room. A room that is all zero has none here, because its length is not encoded.
pub fn written(mut rooms: &[u64]) -> Vec<&[u64]> {
    let mut all = Vec::new();
    while let [first, rest @ ..] = rooms {
        let (entries, rest) = match first {
            2 => rest[1..].split_at(rest[0] as usize),
            _ => rest.split_at(0),
        };
        all.push(entries);
        rooms = rest;
    }
    all
}
