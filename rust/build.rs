//! Links libdeebqoshaan.a: from the folder that DEEBQOSHAAN_ARCHIVE names, or from build/archive, where `gateway archive` writes it.
use std::path::PathBuf;
use std::{env, process};

fn main() {
    println!("cargo::rerun-if-env-changed=DEEBQOSHAAN_ARCHIVE");
    let folder = match env::var_os("DEEBQOSHAAN_ARCHIVE") {
        Some(folder) => PathBuf::from(folder),
        None => PathBuf::from(env!("CARGO_MANIFEST_DIR")).join("../build/archive"),
    };
    let archive = folder.join("libdeebqoshaan.a");
    if !archive.is_file() {
        eprintln!("there is no {}: run `./gateway archive` first, or name its folder in DEEBQOSHAAN_ARCHIVE", archive.display());
        process::exit(1);
    }
    println!("cargo::rerun-if-changed={}", archive.display());
    println!("cargo::rustc-link-search=native={}", folder.display());
    println!("cargo::rustc-link-lib=static=deebqoshaan");
}
