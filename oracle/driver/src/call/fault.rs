//! The refusal for a fault in an input.

/// The number of the refusal, or 0. If a listing is damaged, then also its column, the place in it, and the row that it lacks.
#[derive(Clone, Copy, Debug, Default, PartialEq)]
pub struct Fault(pub [u32; 4]);

impl Fault {
    pub fn number(self) -> u32 {
        self.0[0]
    }

    pub fn none(self) -> bool {
        self.number() == 0
    }

    /// All four, as the fits and the listing check return them.
    pub fn told(self) -> [u64; 4] {
        self.0.map(u64::from)
    }
}

impl From<u32> for Fault {
    fn from(number: u32) -> Self {
        Fault([number, 0, 0, 0])
    }
}

impl From<[u32; 4]> for Fault {
    fn from(told: [u32; 4]) -> Self {
        Fault(told)
    }
}
