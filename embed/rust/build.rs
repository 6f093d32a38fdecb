//! Tells the linker where the proved library's archive is: the file that the variable TURFSTEEPLE_ARCHIVE names,
//! or else where the project's `tools/archive` writes it.

use std::path::PathBuf;
use std::{env, process};

fn main() {
    println!("cargo:rerun-if-env-changed=TURFSTEEPLE_ARCHIVE");
    let here = PathBuf::from(env::var_os("CARGO_MANIFEST_DIR").expect("cargo sets this"));
    let archive = match env::var_os("TURFSTEEPLE_ARCHIVE") {
        Some(path) => PathBuf::from(path),
        None => here.join("../../target/archive/libturfsteeple.a"),
    };
    let archive = archive.canonicalize().unwrap_or_else(|_| {
        eprintln!("no archive at {}: run tools/archive", archive.display());
        process::exit(1);
    });
    if !archive.ends_with("libturfsteeple.a") {
        eprintln!("the archive is to be called libturfsteeple.a, not {}", archive.display());
        process::exit(1);
    }
    let folder = archive.parent().expect("a file stands in a folder");
    println!("cargo:rerun-if-changed={}", archive.display());
    println!("cargo:rustc-link-search=native={}", folder.display());
    println!("cargo:rustc-link-lib=static=turfsteeple");
}
