//! The script files of crate bitcoin 0.32.102 as they were published, over stand-ins for what they lean on.
//!
//! The build script lays out the tree: `standins/tree` of this package, and between them the fifteen files that
//! `published.rs` lists, byte for byte.

#![allow(dead_code, deprecated, unused_imports, unused_macros)]

#[macro_use]
extern crate alloc;

/// The published files that this library was compiled from.
pub mod compiled {
    include!(concat!(env!("OUT_DIR"), "/compiled.rs"));
}

include!(concat!(env!("OUT_DIR"), "/src/root.rs"));
