//! Stand-in for log: with no logger set, as in the original's own default, arguments are checked and not evaluated.
#[macro_export]
macro_rules! trace { ($($arg:tt)+) => { if false { let _ = ::std::format_args!($($arg)+); } } }
#[macro_export]
macro_rules! debug { ($($arg:tt)+) => { $crate::trace!($($arg)+) } }
#[macro_export]
macro_rules! warn { ($($arg:tt)+) => { $crate::trace!($($arg)+) } }
#[macro_export]
macro_rules! error { ($($arg:tt)+) => { $crate::trace!($($arg)+) } }
