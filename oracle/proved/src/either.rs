//! The calls, whichever way the library is used: linked, or through the program that `SERVED` names.

use crate::served;
#[cfg(target_arch = "x86_64")]
use tailboardy_sys::linked;
use tailboardy_sys::*;

macro_rules! choose {
    ($($kind:literal $name:ident = $symbol:ident($($given:ident: $number:ty),*)
        fills($($room:ident: $filled:ty),*) reads($($shared:ident: $read:ty),*) writes($($lent:ident: $written:ty),*)
        ($($last:ident: $after:ty),*) -> $told:ty;)*) => {$(
        pub fn $name(
            $($given: $number,)*
            $($room: &mut [$filled],)*
            $($shared: &[$read],)*
            $($lent: &mut [$written],)*
            $($last: $after,)*
        ) -> $told {
            #[cfg(target_arch = "x86_64")]
            if !served::named() {
                return linked::$name($($given,)* $($room,)* $($shared,)* $($lent,)* $($last,)*);
            }
            served::$name($($given,)* $($room,)* $($shared,)* $($lent,)* $($last,)*)
        }
    )*};
}

calls!(choose);
