//! Stand-in for bitcoin-io: the standard library's own readers and writers.

pub use std::io::{sink, BufRead, Cursor, Error, ErrorKind, Read, Result, Write};
