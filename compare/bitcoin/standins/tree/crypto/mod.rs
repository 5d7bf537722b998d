//! Stand-in: keys alone.

pub mod key;
