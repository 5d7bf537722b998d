//! Asks crate bitcoin 0.32.102 about scripts, through its public interface alone.
//!
//! Each side that is asked has a module of its own whose functions give the plain data of `answers`.

pub mod answers;
pub mod crate_side;
pub mod hex;
pub mod lists;
pub mod paper;
