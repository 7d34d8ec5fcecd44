//! Links libniqastul.a: from the folder that NIQASTUL_LIB_DIR names, or where `make` leaves it in this repository.
use std::{env, path::PathBuf};

fn main() {
    let built = || PathBuf::from(env::var_os("CARGO_MANIFEST_DIR").unwrap()).join("../../target/lib");
    let folder = env::var_os("NIQASTUL_LIB_DIR").map_or_else(built, PathBuf::from);
    let archive = folder.join("libniqastul.a");
    assert!(archive.exists(), "{} is missing: run make in the repository, or set NIQASTUL_LIB_DIR", archive.display());
    println!("cargo:rerun-if-env-changed=NIQASTUL_LIB_DIR");
    println!("cargo:rerun-if-changed={}", archive.display());
    println!("cargo:rustc-link-search=native={}", folder.display());
    println!("cargo:rustc-link-lib=static=niqastul");
}
