//! Links the library that `tools/library` has made, and hands on what that says of where it comes from.

use std::path::Path;
use std::{env, fs, process};

fn main() {
    let package = env::var_os("CARGO_MANIFEST_DIR").unwrap_or_default();
    let folder = Path::new(&package).join("../target/library");
    let archive = folder.join("libfleecebutton.a");
    let origin = folder.join("origin");
    println!("cargo:rerun-if-changed={}", archive.display());
    println!("cargo:rerun-if-changed={}", origin.display());
    let said = fs::read_to_string(&origin).unwrap_or_default();
    let said = said.trim();
    if said.is_empty() || !archive.exists() {
        eprintln!("there is no library in {}: tools/library makes it", folder.display());
        process::exit(1);
    }
    println!("cargo:rustc-env=FLEECEBUTTON_ORIGIN={said}");
    println!("cargo:rustc-link-search=native={}", folder.display());
    println!("cargo:rustc-link-lib=static=fleecebutton");
}
