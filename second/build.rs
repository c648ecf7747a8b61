//! Names the box's static library to the two programs that call it: `libulzhartep.a` in the folder that ULZHARTEP_LIB names, or
//! else in `target/lib` of the repository, where `scripts/library` writes it.

use std::{env, path::PathBuf};

fn main() {
    let folder = env::var_os("ULZHARTEP_LIB").map_or_else(
        || PathBuf::from(env::var_os("CARGO_MANIFEST_DIR").expect("cargo sets it")).join("../target/lib"),
        PathBuf::from,
    );
    let library = folder.join("libulzhartep.a");
    println!("cargo::rerun-if-env-changed=ULZHARTEP_LIB");
    println!("cargo::rerun-if-changed=build.rs");
    println!("cargo::rerun-if-changed={}", library.display());
    for program in ["compare", "bench"] {
        println!("cargo::rustc-link-arg-bin={program}={}", library.display());
    }
}
