//! Finds the archive of the proved functions: where KORTYGHAI_ARCHIVE says (a file, or a folder with libkortyghai.a in it), else where the
//! command `./archive` leaves it.

use std::path::{Path, PathBuf};

const ARCHIVE: &str = "libkortyghai.a";

fn found() -> PathBuf {
    println!("cargo:rerun-if-env-changed=KORTYGHAI_ARCHIVE");
    match std::env::var_os("KORTYGHAI_ARCHIVE").filter(|place| !place.is_empty()).map(PathBuf::from) {
        Some(place) if place.is_dir() => place.join(ARCHIVE),
        Some(place) => place,
        None => Path::new(&std::env::var_os("CARGO_MANIFEST_DIR").unwrap()).join("../target/staticlib").join(ARCHIVE),
    }
}

fn main() {
    let archive = found();
    println!("cargo:rerun-if-changed={}", archive.display());
    let folder = PathBuf::from(std::env::var_os("OUT_DIR").unwrap());
    // a copy, so that an archive of any name will do
    if let Err(error) = std::fs::copy(&archive, folder.join(ARCHIVE)) {
        eprintln!("kortyghai: the archive of the proved functions can't be read: {}: {error}", archive.display());
        eprintln!("Make it by the command `./archive` at the top of the repository (it proves the functions first), or say in the");
        eprintln!("environment variable KORTYGHAI_ARCHIVE where it is: a file, or a folder with {ARCHIVE} in it.");
        std::process::exit(1);
    }
    println!("cargo:rustc-link-search=native={}", folder.display());
    println!("cargo:rustc-link-lib=static=kortyghai");
}
