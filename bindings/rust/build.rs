//! Finds the proved library `libconvert.a` and links it.
//!
//! It is looked for in the folder that `JUIRKES_LIB_DIR` names, else in `target/staticlib` of the repository, where `bindings/library` writes it.

use std::env;
use std::path::PathBuf;

fn main() {
    println!("cargo:rerun-if-env-changed=JUIRKES_LIB_DIR");
    let folder = match env::var_os("JUIRKES_LIB_DIR") {
        Some(folder) => PathBuf::from(folder),
        None => PathBuf::from(env!("CARGO_MANIFEST_DIR")).join("../../target/staticlib"),
    };
    let archive = folder.join("libconvert.a");
    println!("cargo:rerun-if-changed={}", archive.display());
    if !archive.is_file() {
        eprintln!("{} is not there: run `bindings/library` in the repository, or set JUIRKES_LIB_DIR", archive.display());
        std::process::exit(1);
    }
    println!("cargo:rustc-link-search=native={}", folder.display());
    println!("cargo:rustc-link-lib=static=convert");
}
