//! Faults, collected so that a run tells all of them and not just the first.

use crate::stop::Stop;

/// How many faults are told, each on a line of its own; of any others only the number.
const TOLD: usize = 50;

/// What is wrong with the files of a run, in the order in which it was found.
#[derive(Debug, Default)]
pub struct Faults {
    lines: Vec<String>,
    more: usize,
}

impl Faults {
    /// Adds a fault: where something is wrong, and what.
    pub fn add(&mut self, place: &str, why: &str) {
        self.add_line(format!("{place}: {why}"));
    }

    fn add_line(&mut self, line: String) {
        if self.lines.len() < TOLD {
            self.lines.push(line);
        } else {
            self.more += 1;
        }
    }

    pub fn is_empty(&self) -> bool {
        self.lines.is_empty()
    }

    /// Adds the faults of another list.
    pub fn append(&mut self, other: Faults) {
        other.lines.into_iter().for_each(|line| self.add_line(line));
        self.more += other.more;
    }

    /// Stops the run with all faults so far and with one after which nothing more can be found out.
    pub fn stop(&mut self, last: Stop) -> Stop {
        let mut all = std::mem::take(self);
        match last {
            Stop::Usage(_) => last,
            Stop::Refused(lines) | Stop::Damaged(lines, _) => {
                lines.into_iter().for_each(|line| all.add_line(line));
                Stop::Refused(all.lines())
            }
        }
    }

    /// Stops the run if there is any fault.
    pub fn end(self) -> Result<(), Stop> {
        match self.lines.is_empty() {
            true => Ok(()),
            false => Err(Stop::Refused(self.lines())),
        }
    }

    fn lines(mut self) -> Vec<String> {
        match self.more {
            0 => (),
            1 => self.lines.push("1 more fault is not shown".into()),
            more => self.lines.push(format!("{more} more faults are not shown")),
        }
        self.lines
    }
}

#[cfg(test)]
mod tests {
    use super::*;

    fn told(count: usize) -> String {
        let mut faults = Faults::default();
        for line in 0..count {
            faults.add(&format!("t, line {line}"), "bad");
        }
        faults
            .end()
            .map_or_else(|it| it.to_string(), |()| String::new())
    }

    #[test]
    fn fifty_are_told_and_the_others_counted() {
        assert_eq!(told(0), "");
        assert_eq!(told(2), "t, line 0: bad\nt, line 1: bad");
        assert_eq!(told(50).lines().count(), 50);
        assert!(told(50).ends_with("\nt, line 49: bad"));
        assert!(told(51).ends_with("\nt, line 49: bad\n1 more fault is not shown"));
        let mut faults = Faults::default();
        faults.add("t", "bad");
        faults.append(Faults::default());
        assert_eq!(
            faults.stop(Stop::refused("u", "worse")).to_string(),
            "t: bad\nu: worse"
        );
        assert!(told(1050).ends_with("\nt, line 49: bad\n1000 more faults are not shown"));
    }
}
