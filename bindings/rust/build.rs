//! Links the static archive libexports.a.
//!
//! METZURGO_LIB_DIR names the directory that holds it; a relative path is taken
//! from this crate. Without it the directory is ../../target/staticlib.

use std::env;
use std::path::Path;

fn main() {
    println!("cargo:rerun-if-changed=build.rs");
    println!("cargo:rerun-if-env-changed=METZURGO_LIB_DIR");
    let given = env::var("METZURGO_LIB_DIR").unwrap_or_else(|_| "../../target/staticlib".into());
    let crate_dir = env::var("CARGO_MANIFEST_DIR").expect("set by cargo");
    let dir = Path::new(&crate_dir).join(given);
    let archive = dir.join("libexports.a");
    if !archive.exists() {
        panic!(
            "{} is missing: build the archive, or set METZURGO_LIB_DIR",
            archive.display()
        );
    }
    println!("cargo:rerun-if-changed={}", archive.display());
    println!("cargo:rustc-link-search=native={}", dir.display());
    println!("cargo:rustc-link-lib=static=exports");
}
