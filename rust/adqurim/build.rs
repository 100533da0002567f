//! Links the static library of the proved entries.

use std::env;
use std::path::PathBuf;

/// The file that the linker wants.
const LIBRARY: &str = "libadqurim.a";

/// Where the library is: the directory in ADQURIM_LIB_DIR, else where the repository builds it.
fn directory() -> PathBuf {
    let package = PathBuf::from(env::var_os("CARGO_MANIFEST_DIR").expect("cargo sets it"));
    match env::var_os("ADQURIM_LIB_DIR") {
        Some(directory) => PathBuf::from(directory),
        None => package.join("../../crates/adqurim/out"),
    }
}

fn main() {
    let directory = directory();
    let library = directory.join(LIBRARY);
    println!("cargo:rerun-if-env-changed=ADQURIM_LIB_DIR");
    println!("cargo:rerun-if-changed=build.rs");
    println!("cargo:rerun-if-changed={}", library.display());
    if !library.is_file() {
        eprintln!("error: {} is missing.", library.display());
        eprintln!("Run `rt lib` in the folder crates/adqurim,");
        eprintln!("or set ADQURIM_LIB_DIR to the directory that holds {LIBRARY}.");
        std::process::exit(1);
    }
    println!("cargo:rustc-link-search=native={}", directory.display());
    println!("cargo:rustc-link-lib=static=adqurim");
}
