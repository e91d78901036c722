//! A line on the terminal that shows the progress of a long fit.

use crate::output::say;
use std::io::{IsTerminal, stderr};
use std::sync::Mutex;
use std::time::{Duration, Instant};

/// Progress is shown once a fit has taken `LONG`, and then every `OFTEN`.
const LONG: Duration = Duration::from_millis(500);
const OFTEN: Duration = Duration::from_millis(100);

/// When the fit began, and when its progress was last shown.
pub struct Progress {
    shown: bool,
    begun: Instant,
    told: Mutex<Option<Instant>>,
}

impl Progress {
    pub fn new() -> Self {
        Progress {
            shown: stderr().is_terminal(),
            begun: Instant::now(),
            told: Mutex::new(None),
        }
    }

    pub fn tell(&self, stand: usize, all: usize) {
        let Ok(mut told) = self.told.lock() else {
            return;
        };
        let due = told.is_none_or(|told| told.elapsed() >= OFTEN);
        let taken = self.begun.elapsed();
        if self.shown && taken >= LONG && due {
            say(&format!("\r{}\x1b[K", line(stand, all, taken)));
            *told = Some(Instant::now());
        }
    }
}

impl Drop for Progress {
    /// Clears the line, whether the fit succeeded or not.
    fn drop(&mut self) {
        if self.told.lock().is_ok_and(|told| told.is_some()) {
            say("\r\x1b[K");
        }
    }
}

fn line(stand: usize, all: usize, taken: Duration) -> String {
    match left(stand, all, taken) {
        Some(left) => format!("{stand} of {all} trees grown, {} left", about(left)),
        None => format!("{stand} of {all} trees grown"),
    }
}

/// How long the other trees will take if they take as long as those that have been grown.
fn left(stand: usize, all: usize, taken: Duration) -> Option<Duration> {
    let others = all.checked_sub(stand)? as f64;
    let each = taken.as_secs_f64() / stand as f64;
    Duration::try_from_secs_f64(each * others).ok()
}

/// A duration in words, rounded up and no more exact than an estimate can be.
fn about(time: Duration) -> String {
    let seconds = time.as_secs_f64().ceil() as u64;
    let minutes = seconds.div_ceil(60);
    match seconds {
        0..=10 => format!("{seconds} s"),
        11..=90 => format!("about {} s", seconds.next_multiple_of(5)),
        91..=5_400 => format!("about {minutes} min"),
        _ => format!("about {} h {} min", minutes / 60, minutes % 60),
    }
}

#[cfg(test)]
mod tests {
    use super::*;

    #[test]
    fn the_time_left_is_estimated() {
        let seconds = Duration::from_secs;
        assert_eq!(left(1, 4, seconds(2)), Some(seconds(6)));
        assert_eq!(left(30, 40, seconds(60)), Some(seconds(20)));
        assert_eq!(left(4, 4, seconds(2)), Some(seconds(0)));
        assert_eq!(left(0, 4, seconds(2)), None);
        assert_eq!(left(0, 0, seconds(0)), None);
        assert_eq!(left(5, 4, seconds(2)), None);
    }

    #[test]
    fn the_time_left_is_told_in_words() {
        for (seconds, words) in [
            (0.0, "0 s"),
            (0.2, "1 s"),
            (10.0, "10 s"),
            (10.1, "about 15 s"),
            (90.0, "about 90 s"),
            (90.5, "about 2 min"),
            (601.0, "about 11 min"),
            (5_401.0, "about 1 h 31 min"),
            (7_200.0, "about 2 h 0 min"),
        ] {
            assert_eq!(about(Duration::from_secs_f64(seconds)), words);
        }
        let taken = Duration::from_secs(8);
        assert_eq!(
            line(40, 100, taken),
            "40 of 100 trees grown, about 15 s left"
        );
        assert_eq!(line(0, 100, taken), "0 of 100 trees grown");
    }
}
