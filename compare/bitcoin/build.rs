//! Lays out the source tree that is compiled: the published files, byte for byte, and the stand-ins beside them.

use std::path::{Path, PathBuf};
use std::{env, fs};

include!("published.rs");

fn main() {
    let package = PathBuf::from(env::var_os("CARGO_MANIFEST_DIR").unwrap());
    let out = PathBuf::from(env::var_os("OUT_DIR").unwrap());
    let folder = published_folder(&package);
    let tree = out.join("src");

    if tree.exists() {
        fs::remove_dir_all(&tree).unwrap();
    }
    let standins = package.join("standins/tree");
    println!("cargo::rerun-if-changed={}", standins.display());
    lay_out_standins(&standins, &tree);
    for name in PUBLISHED {
        lay_out_published(&folder.join(name), &out.join(name));
    }

    fs::write(out.join("compiled.rs"), compiled(&folder)).unwrap();
    println!("cargo::rerun-if-changed=build.rs");
    println!("cargo::rerun-if-changed=published.rs");
    declare_configuration();
}

/// The folder that BITCOIN_SRC names, counted from the project's root where it is not absolute.
fn published_folder(package: &Path) -> PathBuf {
    println!("cargo::rerun-if-env-changed=BITCOIN_SRC");
    let named = env::var_os("BITCOIN_SRC").unwrap_or_else(|| "../shared/docs/src".into());
    package.join("../..").join(named)
}

/// Copies one published file and compares the copy with it, byte for byte. No stand-in may stand in its place.
fn lay_out_published(from: &Path, to: &Path) {
    assert!(!to.exists(), "a stand-in stands in the place of {}", from.display());
    let there = fs::read(from)
        .unwrap_or_else(|e| panic!("{}: {e}. BITCOIN_SRC names the folder that holds src/", from.display()));
    fs::create_dir_all(to.parent().unwrap()).unwrap();
    fs::write(to, &there).unwrap();
    assert!(fs::read(to).unwrap() == there, "{} was not copied byte for byte", from.display());
    println!("cargo::rerun-if-changed={}", from.display());
}

fn lay_out_standins(from: &Path, to: &Path) {
    fs::create_dir_all(to).unwrap();
    for entry in fs::read_dir(from).unwrap() {
        let entry = entry.unwrap();
        let target = to.join(entry.file_name());
        if entry.file_type().unwrap().is_dir() {
            lay_out_standins(&entry.path(), &target);
        } else {
            fs::copy(entry.path(), &target).unwrap();
        }
    }
}

/// Rust text for `bitcoin::compiled`: where the files were taken from, and the bytes that the compiler reads.
fn compiled(folder: &Path) -> String {
    let mut text = format!("pub const FOLDER: &str = {:?};\n", folder.display().to_string());
    text += &format!("pub const FILES: [(&str, &[u8]); {}] = [\n", PUBLISHED.len());
    for name in PUBLISHED {
        text += &format!("    ({name:?}, include_bytes!({name:?})),\n");
    }
    text + "];\n"
}

/// The switches of the published crate's own build for a compiler of today, and the ones its files name.
fn declare_configuration() {
    for version in ["rust_v_1_60", "rust_v_1_61", "rust_v_1_64"] {
        println!("cargo::rustc-cfg={version}");
        println!("cargo::rustc-check-cfg=cfg({version})");
    }
    println!("cargo::rustc-check-cfg=cfg(feature, values(any()))");
}
