//! Finds libkt11b.a and has it linked.

use std::env;
use std::path::{self, PathBuf};
use std::process::exit;

const LIBRARY: &str = "libkt11b.a";

fn main() {
    println!("cargo:rerun-if-env-changed=KT11B_LIB_DIR");
    println!("cargo:rerun-if-changed=build.rs");
    let folder = library_folder();
    // A relative path is taken from this crate's folder; the whole path shows that to whoever gave another.
    let folder = path::absolute(&folder).unwrap_or(folder);
    let library = folder.join(LIBRARY);
    // Watched even while it is not there, so that building it later is noticed.
    println!("cargo:rerun-if-changed={}", library.display());
    if !library.is_file() {
        eprintln!("kt11b: {} is not there.", library.display());
        eprintln!("kt11b: build it in the project's folder by: host/build");
        eprintln!("kt11b: or name the folder that holds {LIBRARY} in KT11B_LIB_DIR.");
        exit(1);
    }
    println!("cargo:rustc-link-search=native={}", folder.display());
    println!("cargo:rustc-link-lib=static=kt11b");
}

/// The folder KT11B_LIB_DIR names, or else the one `host/build` writes to in the project that this crate is part of.
fn library_folder() -> PathBuf {
    if let Some(folder) = env::var_os("KT11B_LIB_DIR") {
        return PathBuf::from(folder);
    }
    let crate_folder = env::var_os("CARGO_MANIFEST_DIR").map(PathBuf::from).unwrap_or_default();
    crate_folder.join("../../target/staticlib")
}
