//! Stand-in for src/debug_delay.rs: the original only yields or sleeps at random, to provoke races. One caller has none.
pub fn debug_delay() {}
