//! Tells the linker where `libulzhartep.a` or `libulzhartep.so` lies: in the folder that ULZHARTEP_LIB names, or else where
//! pkg-config says, or else in `target/lib` of the repository. ULZHARTEP_SHARED asks for the shared one.

use std::{env, path::PathBuf, process::Command};

fn main() {
    println!("cargo::rerun-if-changed=build.rs");
    println!("cargo::rerun-if-env-changed=ULZHARTEP_LIB");
    println!("cargo::rerun-if-env-changed=ULZHARTEP_SHARED");
    if env::var_os("CARGO_FEATURE_LINK").is_none() {
        return;
    }
    let folder = env::var_os("ULZHARTEP_LIB").map(PathBuf::from).or_else(installed).unwrap_or_else(built);
    let kind = if env::var_os("ULZHARTEP_SHARED").is_some() { "dylib" } else { "static" };
    println!("cargo::rustc-link-search=native={}", folder.display());
    println!("cargo::rustc-link-lib={kind}=ulzhartep");
}

fn installed() -> Option<PathBuf> {
    let said = Command::new("pkg-config").args(["--variable=libdir", "ulzhartep"]).output().ok()?;
    let folder = String::from_utf8(said.stdout).ok()?.trim().to_owned();
    (said.status.success() && !folder.is_empty()).then(|| folder.into())
}

fn built() -> PathBuf {
    PathBuf::from(env::var_os("CARGO_MANIFEST_DIR").expect("cargo sets it")).join("../../target/lib")
}
