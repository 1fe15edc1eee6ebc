//! Links libkaldvemir.a, the archive that `./build.sh kaldvemir` makes.
use std::path::{Path, PathBuf};
use std::{env, process};

fn main() {
    println!("cargo:rerun-if-changed=build.rs");
    println!("cargo:rerun-if-env-changed=KALDVEMIR_LIB_DIR");
    let folder = match env::var_os("KALDVEMIR_LIB_DIR") {
        Some(folder) => PathBuf::from(folder),
        None => Path::new(&env::var_os("CARGO_MANIFEST_DIR").expect("cargo names the manifest's folder")).join("../../target/staticlib"),
    };
    let archive = folder.join("libkaldvemir.a");
    println!("cargo:rerun-if-changed={}", archive.display());
    if !archive.is_file() {
        eprintln!("{} is not there.", archive.display());
        eprintln!("Make it with `./build.sh kaldvemir` at the top of the repository, or name its folder in KALDVEMIR_LIB_DIR.");
        process::exit(1);
    }
    println!("cargo:rustc-link-search=native={}", folder.display());
    println!("cargo:rustc-link-lib=static=kaldvemir");
}
