//! tailboardy: the two-armed form of `cfg_if!`, all that the copied files use.

#[macro_export]
macro_rules! cfg_if {
    (if #[cfg($test:meta)] { $($yes:tt)* } else { $($no:tt)* }) => {
        #[cfg($test)]
        $crate::cfg_if! { @as_is $($yes)* }
        #[cfg(not($test))]
        $crate::cfg_if! { @as_is $($no)* }
    };
    (@as_is $($tokens:tt)*) => { $($tokens)* };
}
