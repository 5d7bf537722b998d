//! What was compiled is what stands in the folder that BITCOIN_SRC named, and is what this comparison was made with.

use std::fs;
use std::path::Path;

use bitcoin::compiled::{FILES, FOLDER};

include!("../published.rs");

/// The checksum that the command `cksum` gives.
fn cksum(bytes: &[u8]) -> u32 {
    let mut length = Vec::new();
    let mut rest = bytes.len();
    while rest > 0 {
        length.push(rest as u8);
        rest >>= 8;
    }
    let shift = |sum: u32, byte: &u8| {
        let high = sum ^ (u32::from(*byte) << 24);
        (0..8).fold(high, |s, _| (s << 1) ^ (if s >> 31 == 1 { 0x04c1_1db7 } else { 0 }))
    };
    !bytes.iter().chain(&length).fold(0, shift)
}

#[test]
fn fifteen_files_are_compiled_byte_for_byte() {
    assert_eq!(FILES.map(|(name, _)| name), PUBLISHED);
    for (name, compiled) in FILES {
        let there = fs::read(Path::new(FOLDER).join(name)).unwrap();
        assert!(compiled == there, "{name} was compiled from other bytes than the folder holds");
    }
    println!("{} files compiled as they stand in {FOLDER}", FILES.len());
}

/// Fails where BITCOIN_SRC names files of another version, or with their tests: `published.cksum` lists the ones used here.
#[test]
fn fifteen_files_are_the_ones_listed() {
    let found: String =
        FILES.iter().map(|(name, bytes)| format!("{} {} {name}\n", cksum(bytes), bytes.len())).collect();
    print!("{found}");
    assert_eq!(found, include_str!("../published.cksum"));
}
