//! Stand-in: the two numbers that policy.rs takes.

pub const MAX_BLOCK_SIGOPS_COST: i64 = 80_000;
pub const WITNESS_SCALE_FACTOR: usize = 4;
