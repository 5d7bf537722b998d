//! Stand-in: the relative lock time is not named.

pub mod absolute;
