//! Links `libglobe_c.a`, which `./archive` makes.
//! It is looked for in the folder that GLOBE_LIB_DIR names, else where `./archive` writes it.

use std::env;
use std::path::{Path, PathBuf};

/// Where `./archive` writes the static library, from this crate's folder.
const DEFAULT_FOLDER: &str = "../../target/staticlib";

fn main() {
    println!("cargo::rerun-if-env-changed=GLOBE_LIB_DIR");
    let folder = folder();
    let archive = folder.join("libglobe_c.a");
    println!("cargo::rerun-if-changed={}", archive.display());
    if !archive.is_file() {
        println!(
            "cargo::error=there is no {}: make it by `./archive` at the top of the \
             repository, or name the folder that has it in GLOBE_LIB_DIR",
            archive.display()
        );
        return;
    }
    println!("cargo::rustc-link-search=native={}", folder.display());
    println!("cargo::rustc-link-lib=static=globe_c");
    println!("cargo::rustc-link-lib=m");
    println!("cargo::rustc-env=GLOBE_ARCHIVE={}", archive.display());
}

fn folder() -> PathBuf {
    let crate_folder = env::var_os("CARGO_MANIFEST_DIR").unwrap_or_default();
    let default = || Path::new(&crate_folder).join(DEFAULT_FOLDER);
    let folder = env::var_os("GLOBE_LIB_DIR").map_or_else(default, PathBuf::from);
    folder.canonicalize().unwrap_or(folder)
}
