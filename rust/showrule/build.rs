//! Finds the static library that .ci/run and, in crates/boundary, `rt lib` write: in SHOWRULE_LIB_DIR, an absolute path, or in this repository's
//! crates/boundary/out.
use std::{env, path::PathBuf};

fn main() {
    let folder = match env::var_os("SHOWRULE_LIB_DIR") {
        Some(folder) => PathBuf::from(folder),
        None => PathBuf::from(env::var_os("CARGO_MANIFEST_DIR").expect("cargo sets it")).join("../../crates/boundary/out"),
    };
    let library = folder.join("libboundary.a");
    if !library.is_file() {
        panic!(
            "{} is missing: run .ci/run, or `rt lib` in crates/boundary, or set SHOWRULE_LIB_DIR to the folder that has libboundary.a, by its absolute path",
            library.display()
        );
    }
    println!("cargo:rerun-if-env-changed=SHOWRULE_LIB_DIR");
    println!("cargo:rerun-if-changed={}", library.display());
    println!("cargo:rustc-link-search=native={}", folder.display());
    println!("cargo:rustc-link-lib=static=boundary");
}
