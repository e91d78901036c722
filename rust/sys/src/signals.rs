//! Signals that would end the program in the middle of something, such as replacing a file.

use std::sync::atomic::{AtomicBool, AtomicU32, Ordering};
use std::sync::{Mutex, PoisonError};

// the numbers and the action that Linux has on x86-64 and aarch64
const SIGHUP: i32 = 1;
const SIGINT: i32 = 2;
const SIGQUIT: i32 = 3;
const SIGTERM: i32 = 15;
const SIGXCPU: i32 = 24;
const SIGXFSZ: i32 = 25;
const IGNORE: usize = 1;

/// Signals that are noted while they are held back. They come from outside, and end a program that does nothing about them.
const NOTED: [i32; 5] = [SIGHUP, SIGINT, SIGQUIT, SIGTERM, SIGXCPU];
const ALL: usize = NOTED.len() + 1;

unsafe extern "C" {
    fn signal(number: i32, action: usize) -> usize;
    fn raise(number: i32) -> i32;
}

/// Whether signals are held back; those that have come meanwhile, a bit each; and those that the program did not ignore before.
static HOLDING: AtomicBool = AtomicBool::new(false);
static CAME: AtomicU32 = AtomicU32::new(0);
static HEEDED: AtomicU32 = AtomicU32::new(0);
/// How many calls of [`held`] are running, and the actions from before the first of them.
static HELD: Mutex<(usize, [usize; ALL])> = Mutex::new((0, [0; ALL]));

extern "C" fn note(number: i32) {
    CAME.fetch_or(1 << number, Ordering::SeqCst);
    // in another thread the last call may have ended since the signal came
    if !HOLDING.load(Ordering::SeqCst) {
        let_through();
    }
}

/// Raises the signals that have come, each of them once, whichever thread gets here first.
fn let_through() {
    let came = CAME.swap(0, Ordering::SeqCst);
    for number in NOTED.into_iter().filter(|it| came & (1 << it) != 0) {
        // the signal takes the action that is in force; in a handler of the same signal, once that has returned
        unsafe { raise(number) };
    }
}

/// Sets the actions of all signals and returns those from before.
fn set(actions: [usize; ALL]) -> [usize; ALL] {
    let mut before = actions;
    for (number, action) in NOTED.into_iter().chain([SIGXFSZ]).zip(&mut before) {
        // the action is to ignore the signal, or the address of `note`, which does only what a handler may do, or it was in force before
        *action = unsafe { signal(number, *action) };
    }
    before
}

struct Hold;

impl Hold {
    fn new() -> Self {
        let mut held = HELD.lock().unwrap_or_else(PoisonError::into_inner);
        if held.0 == 0 {
            let note = note as extern "C" fn(i32) as usize;
            let mut actions = [note; ALL];
            actions[NOTED.len()] = IGNORE;
            HOLDING.store(true, Ordering::SeqCst);
            held.1 = set(actions);
            let heeded = NOTED.iter().zip(held.1).filter(|(_, it)| *it != IGNORE);
            let heeded = heeded.fold(0, |all, (number, _)| all | 1 << number);
            HEEDED.store(heeded, Ordering::SeqCst);
        }
        held.0 += 1;
        Hold
    }
}

impl Drop for Hold {
    fn drop(&mut self) {
        let mut held = HELD.lock().unwrap_or_else(PoisonError::into_inner);
        held.0 -= 1;
        if held.0 > 0 {
            return;
        }
        set(held.1);
        HOLDING.store(false, Ordering::SeqCst);
        drop(held);
        let_through();
    }
}

/// Runs `work` while SIGHUP, SIGINT, SIGQUIT, SIGTERM and SIGXCPU are held back, in all threads. Those that came are let through afterwards,
/// which ends the program unless it ignores them. SIGXFSZ is ignored meanwhile, so that a file that grows too large is an error of the
/// write and not the end of the program.
///
/// Calls may be nested, and made from several threads: signals are held back until the last of them is done. Handlers that other
/// code has installed for these signals come back afterwards, without their flags and masks.
pub fn held<T>(work: impl FnOnce() -> T) -> T {
    let _hold = Hold::new();
    work()
}

/// Whether a signal is held back that will be let through, so that `work` may end early.
pub fn came() -> bool {
    CAME.load(Ordering::SeqCst) & HEEDED.load(Ordering::SeqCst) != 0
}

#[cfg(test)]
mod tests {
    use super::*;

    static COUNT: AtomicU32 = AtomicU32::new(0);

    extern "C" fn count(_: i32) {
        COUNT.fetch_add(1, Ordering::SeqCst);
    }

    /// Nothing else in this program depends on these signals.
    fn action(number: i32, action: usize) -> usize {
        unsafe { signal(number, action) }
    }

    #[test]
    fn signals_wait_for_the_last_call_and_then_take_their_own_action() {
        let count = count as extern "C" fn(i32) as usize;
        let (quit, hang_up) = (action(SIGQUIT, count), action(SIGHUP, IGNORE));
        held(|| {
            unsafe { raise(SIGHUP) };
            assert!(!came(), "as under `nohup`");
            held(|| unsafe { raise(SIGQUIT) });
            assert!(came());
            assert_eq!(COUNT.load(Ordering::SeqCst), 0);
        });
        assert!(!came());
        assert_eq!(COUNT.load(Ordering::SeqCst), 1);
        assert_eq!(action(SIGQUIT, quit), count);
        assert_eq!(action(SIGHUP, hang_up), IGNORE);
    }
}
