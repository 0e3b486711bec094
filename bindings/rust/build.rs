//! Links libcapi.a, which `tools/archive` writes, from the repository's target/staticlib or from the folder that
//! MARSHDECK_LIB names.

use std::env;
use std::path::{Path, PathBuf};
use std::process::exit;

const ARCHIVE: &str = "libcapi.a";

fn folder() -> PathBuf {
    match env::var_os("MARSHDECK_LIB") {
        Some(named) => PathBuf::from(named),
        None => Path::new(env!("CARGO_MANIFEST_DIR")).join("../../target/staticlib"),
    }
}

fn main() {
    let folder = folder();
    let archive = folder.join(ARCHIVE);
    println!("cargo:rerun-if-env-changed=MARSHDECK_LIB");
    println!("cargo:rerun-if-changed={}", archive.display());
    if !archive.is_absolute() {
        eprintln!(
            "MARSHDECK_LIB has to name a folder from the root on, and is {}",
            folder.display()
        );
        exit(1);
    }
    if !archive.is_file() {
        eprintln!("{} is missing", archive.display());
        eprintln!("make it with `tools/archive` at the repository's root, or name its folder in MARSHDECK_LIB");
        exit(1);
    }
    println!("cargo:rustc-link-search=native={}", folder.display());
    println!("cargo:rustc-link-lib=static=capi");
    println!("cargo:rustc-link-lib=m");
}
