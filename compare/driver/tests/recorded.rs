//! The stored sample and the summary of `replay` are what `record` writes.

use std::path::Path;
use std::process::Command;

fn written(word: &str) -> Vec<u8> {
    let output = Command::new(env!("CARGO_BIN_EXE_record")).arg(word).output().expect("record runs");
    assert!(output.status.success());
    output.stdout
}

fn stored(name: &str) -> Vec<u8> {
    let replay = Path::new(env!("CARGO_MANIFEST_DIR")).join("../../crates/replay");
    std::fs::read(replay.join(name)).expect("the file is stored")
}

#[test]
fn the_stored_sample_is_what_is_recorded() {
    assert!(written("sample") == stored("stdin"));
    assert_eq!(String::from_utf8_lossy(&written("summary")), String::from_utf8_lossy(&stored("stdout")));
}
