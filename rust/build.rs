//! Links libboundary.a, the static library that `rt lib` makes in crates/boundary.

use std::env;
use std::path::{Path, PathBuf};
use std::process::Command;

const ARCHIVE: &str = "libboundary.a";

fn main() {
    println!("cargo::rerun-if-env-changed=BRINEBUTTON_LIB");
    let folder = match env::var_os("BRINEBUTTON_LIB") {
        Some(named) => {
            let folder = PathBuf::from(named);
            assert!(folder.join(ARCHIVE).exists(), "BRINEBUTTON_LIB names {}: no {ARCHIVE} there", folder.display());
            folder
        }
        None => made_in_the_project(),
    };
    let folder = folder.canonicalize().unwrap();
    println!("cargo::rerun-if-changed={}", folder.join(ARCHIVE).display());
    println!("cargo::rustc-link-search=native={}", folder.display());
    println!("cargo::rustc-link-lib=static=boundary");
}

/// The project's own folder for it. Where the archive is not there yet, it is proved and made.
fn made_in_the_project() -> PathBuf {
    let root = Path::new(&env::var_os("CARGO_MANIFEST_DIR").unwrap()).parent().unwrap().to_path_buf();
    let boundary = root.join("crates/boundary");
    let folder = boundary.join("out");
    if !folder.join(ARCHIVE).exists() {
        println!(
            "cargo::warning=no {ARCHIVE} in crates/boundary/out: running `rt lib` in crates/boundary, which proves it first"
        );
        let made = Command::new("rt").arg("lib").current_dir(&boundary).status();
        let made = made.unwrap_or_else(|e| panic!("rt: {e}. BRINEBUTTON_LIB can name a folder that holds {ARCHIVE}"));
        assert!(made.success(), "`rt lib` in crates/boundary made no {ARCHIVE}");
    }
    folder
}
