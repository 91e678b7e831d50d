//! Builds and links the proved archive.
//!
//! `KIRDANZUG_ARCHIVE` may name a folder that already holds libabi.a; otherwise `rt lib`
//! is run in crates/abi and writes crates/abi/out/libabi.a.

use std::env;
use std::path::{Path, PathBuf};
use std::process::Command;

fn main() {
    println!("cargo:rerun-if-env-changed=KIRDANZUG_ARCHIVE");
    let folder = match env::var_os("KIRDANZUG_ARCHIVE") {
        Some(folder) => PathBuf::from(folder),
        None => build_archive(),
    };
    // Cargo runs this file and the linker in different folders.
    assert!(folder.is_absolute(), "KIRDANZUG_ARCHIVE must be a path from the root: {}", folder.display());
    let archive = folder.join("libabi.a");
    assert!(archive.exists(), "{} is missing", archive.display());
    println!("cargo:rerun-if-changed={}", archive.display());
    println!("cargo:rustc-link-search=native={}", folder.display());
    println!("cargo:rustc-link-lib=static=abi");
    // For this crate's own tests, which link the archive with C callers.
    println!("cargo:rustc-env=KIRDANZUG_ARCHIVE_FOLDER={}", folder.display());
}

/// Runs `rt lib` in crates/abi; answers the folder of the archive.
fn build_archive() -> PathBuf {
    let manifest = env::var("CARGO_MANIFEST_DIR").expect("cargo sets CARGO_MANIFEST_DIR");
    let root = Path::new(&manifest).parent().expect("rust/ has a parent");
    // Not all of crates/: what `rt` makes there, in each crate's out/, changes by this very run.
    for crate_folder in std::fs::read_dir(root.join("crates")).expect("crates/ is there") {
        for part in ["src", "specs", "proofs"] {
            println!("cargo:rerun-if-changed={}", crate_folder.as_ref().expect("a folder").path().join(part).display());
        }
    }
    println!("cargo:rerun-if-changed={}", root.join("crates.txt").display());
    let run = Command::new("rt").arg("lib").current_dir(root.join("crates").join("abi")).output();
    let output = run.expect("rt cannot be started");
    let text = String::from_utf8_lossy(&output.stdout).into_owned()
        + &String::from_utf8_lossy(&output.stderr);
    assert!(output.status.success(), "rt lib failed:\n{text}");
    root.join("crates").join("abi").join("out")
}
