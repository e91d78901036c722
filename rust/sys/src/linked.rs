//! The linked library: each call as a function of slices, which C sees as a pointer and a length.
//!
//! Every function here is safe. The pointer of a slice is aligned and not null, even if the slice is empty; its entries are
//! initialised, and flags are 0 or 1; a mutable slice overlaps no other slice, and nothing else accesses it during the call; the
//! library requires the same floating-point environment as Rust, and each call makes sure of it; and if the stack overflows, the
//! library hits the guard page, because it touches its stack page by page.

#![allow(clippy::too_many_arguments)]

use crate::*;
use std::arch::asm;

/// MXCSR as Rust requires it, apart from the status flags: round to nearest, no traps, subnormals not flushed to zero.
const PLAIN: u32 = 0x1f80;
const HAPPENED: u32 = 0x3f;

/// Resets the thread's floating-point mode to what Rust requires, if something has changed it. If subnormals counted as zeros, a fit
/// could write outside its slices, because the proofs assume the arithmetic of IEEE 754.
fn plain_floats() {
    let mut mode = 0_u32;
    // both instructions access only these four bytes and the register, and leave the mode that Rust requires
    unsafe {
        asm!("stmxcsr [{}]", in(reg) &mut mode, options(nostack, preserves_flags));
        if mode & !HAPPENED != PLAIN {
            asm!("ldmxcsr [{}]", in(reg) &PLAIN, options(nostack, preserves_flags, readonly));
        }
    }
}

macro_rules! link {
    ($($kind:literal $name:ident = $symbol:ident($($given:ident: $number:ty),*)
        fills($($room:ident: $filled:ty),*) reads($($shared:ident: $read:ty),*) writes($($lent:ident: $written:ty),*)
        ($($last:ident: $after:ty),*) -> $told:ty;)*) => {
        unsafe extern "C" {$(
            fn $symbol(
                $($given: $number,)*
                $($room: *mut $filled, _: usize,)*
                $($shared: *const $read, _: usize,)*
                $($lent: *mut $written, _: usize,)*
                $($last: $after,)*
            ) -> $told;
        )*}
        $(
            #[doc = concat!("`", stringify!($symbol), "` of include/tailboardy.h.")]
            #[must_use]
            pub fn $name(
                $($given: $number,)*
                $($room: &mut [$filled],)*
                $($shared: &[$read],)*
                $($lent: &mut [$written],)*
                $($last: $after,)*
            ) -> $told {
                plain_floats();
                // each pointer comes with the length of its own slice, and mutable slices do not overlap
                unsafe {
                    $symbol(
                        $($given,)*
                        $($room.as_mut_ptr(), $room.len(),)*
                        $($shared.as_ptr(), $shared.len(),)*
                        $($lent.as_mut_ptr(), $lent.len(),)*
                        $($last,)*
                    )
                }
            }
        )*
    };
}

calls!(link);

#[cfg(test)]
mod tests {
    use super::*;

    fn mode() -> u32 {
        let mut mode = 0_u32;
        unsafe { asm!("stmxcsr [{}]", in(reg) &mut mode, options(nostack, preserves_flags)) };
        mode
    }

    /// Subnormals flushed to zero, rounding toward zero, or a trap: the next call resets them all.
    #[test]
    fn a_float_mode_that_is_not_rusts_is_put_back() {
        for other in [0x9f80_u32, 0x1fc0, 0x9fc0, 0x7f80, 0x1d80] {
            unsafe {
                asm!("ldmxcsr [{}]", in(reg) &other, options(nostack, preserves_flags, readonly))
            };
            let told = out_of_bag_error(1, &[1.0], &[f64::MIN_POSITIVE / 4.0]);
            assert_eq!(mode() & !HAPPENED, PLAIN, "{other:x}");
            assert_eq!((told.number, told.error, told.rows), (0, 1.0, 1));
        }
    }
}
