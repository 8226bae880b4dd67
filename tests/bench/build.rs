//! Links the libraries in the folder BENCH_LIBRARIES, which `run` and the gate name: the proved one, and the study's where it is there.

use std::env;
use std::path::Path;

fn main() {
    println!("cargo:rerun-if-env-changed=BENCH_LIBRARIES");
    println!("cargo:rustc-check-cfg=cfg(study)");
    let Ok(folder) = env::var("BENCH_LIBRARIES") else {
        panic!("tests/bench/run makes the libraries and builds this");
    };
    println!("cargo:rerun-if-changed={folder}");
    println!("cargo:rustc-link-search=native={folder}");
    println!("cargo:rustc-link-lib=static=fleecebutton");
    if Path::new(&folder).join("libstudy.a").exists() {
        println!("cargo:rustc-link-lib=static=study");
        println!("cargo:rustc-cfg=study");
    }
}
