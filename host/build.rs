//! Names the static library and the folder that has it: NAHOKIPE_LIB_DIR, or else where `rt lib` in crates/nahokipe writes it.

use std::env;
use std::path::{Path, PathBuf};

fn main() {
    let folder = library_folder();
    let archive = folder.join("libnahokipe.a");
    println!("cargo:rerun-if-env-changed=NAHOKIPE_LIB_DIR");
    println!("cargo:rerun-if-changed={}", archive.display());
    println!("cargo:rustc-link-search=native={}", folder.display());
    println!("cargo:rustc-link-lib=static=nahokipe");
    if !archive.exists() {
        println!("cargo:warning=no libnahokipe.a yet: `rt lib` in crates/nahokipe writes it");
    }
}

fn library_folder() -> PathBuf {
    match env::var_os("NAHOKIPE_LIB_DIR") {
        Some(folder) => PathBuf::from(folder),
        None => Path::new(env!("CARGO_MANIFEST_DIR")).join("../crates/nahokipe/out"),
    }
}
