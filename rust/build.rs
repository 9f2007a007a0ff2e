//! Finds liblc3.a: in LC3_LIB_DIR, else in ../target/staticlib, where `./lc3 library` writes it.

use std::path::PathBuf;

fn main() {
    println!("cargo:rerun-if-env-changed=LC3_LIB_DIR");
    let here = PathBuf::from(std::env::var_os("CARGO_MANIFEST_DIR").unwrap());
    let dir = std::env::var_os("LC3_LIB_DIR").map_or_else(|| here.join("../target/staticlib"), PathBuf::from);
    let archive = dir.join("liblc3.a");
    println!("cargo:rerun-if-changed={}", archive.display());
    if !archive.is_file() {
        println!("cargo:warning={} is not there: ./lc3 library, in the repository's folder, makes it", archive.display());
    }
    println!("cargo:rustc-link-search=native={}", dir.display());
    println!("cargo:rustc-link-lib=static=lc3");
}
