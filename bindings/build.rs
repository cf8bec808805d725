//! Links libconsole_c.a, which `tools/staticlib` writes: from the folder that MUGWORTLATCH_LIB_DIR names, or else
//! from target/staticlib of the repository.
use std::path::{Path, PathBuf};

const FOLDER: &str = "MUGWORTLATCH_LIB_DIR";

fn main() {
    let folder = folder();
    let library = folder.join("libconsole_c.a");
    println!("cargo:rerun-if-env-changed={FOLDER}");
    println!("cargo:rerun-if-changed={}", library.display());
    if !library.exists() {
        eprintln!("no {}: run `tools/staticlib` at the repository's root,", library.display());
        eprintln!("or name the library's folder in {FOLDER}");
        std::process::exit(1);
    }
    println!("cargo:rustc-link-search=native={}", folder.display());
    println!("cargo:rustc-link-lib=static=console_c");
}

fn folder() -> PathBuf {
    match std::env::var_os(FOLDER) {
        Some(folder) => PathBuf::from(folder),
        None => Path::new(env!("CARGO_MANIFEST_DIR")).join("../target/staticlib"),
    }
}
