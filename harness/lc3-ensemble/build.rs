//! Lays the crate's published files, unedited, beside the two stand-ins: `sim.rs` and `asm/encoding.rs`.
//! They stand in the folder LC3_ENSEMBLE, by default `shared/docs/src` beside the repository.

use std::path::{Path, PathBuf};
use std::{env, fs};

fn copy(from: &Path, to: &Path) {
    println!("cargo:rerun-if-changed={}", from.display());
    if from.is_file() {
        fs::copy(from, to).unwrap_or_else(|e| panic!("{}: {e}", from.display()));
        return;
    }
    fs::create_dir_all(to).unwrap();
    for entry in fs::read_dir(from).unwrap_or_else(|e| panic!("{}: {e}", from.display())) {
        let entry = entry.unwrap();
        copy(&entry.path(), &to.join(entry.file_name()));
    }
}

fn main() {
    println!("cargo:rerun-if-env-changed=LC3_ENSEMBLE");
    let here = PathBuf::from(env::var_os("CARGO_MANIFEST_DIR").unwrap());
    let published = env::var_os("LC3_ENSEMBLE").map_or_else(|| here.join("../../../shared/docs/src"), PathBuf::from);
    let out = PathBuf::from(env::var_os("OUT_DIR").unwrap()).join("crate");
    if out.exists() {
        fs::remove_dir_all(&out).unwrap();
    }
    fs::create_dir_all(&out).unwrap();
    for part in ["asm.rs", "ast", "ast.rs", "err.rs", "parse", "parse.rs"] {
        copy(&published.join("src").join(part), &out.join(part));
    }
    copy(&here.join("stand-ins"), &out);
    fs::write(out.join("all.rs"), "pub mod parse;\npub mod ast;\npub mod asm;\npub mod sim;\npub mod err;\n").unwrap();
}
