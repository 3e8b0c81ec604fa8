//! Links the proved archive: target/staticlib/libhaabuvilk.a, or that of the folder HAABUVILK_LIB.

use std::path::PathBuf;

fn main() {
    println!("cargo:rerun-if-env-changed=HAABUVILK_LIB");
    let here = PathBuf::from(std::env::var("CARGO_MANIFEST_DIR").expect("cargo sets it"));
    let folder = std::env::var("HAABUVILK_LIB").map_or_else(|_| here.join("../../target/staticlib"), PathBuf::from);
    let archive = folder.join("libhaabuvilk.a");
    assert!(archive.exists(), "{} is missing: make archive writes it", archive.display());
    println!("cargo:rerun-if-changed={}", archive.display());
    println!("cargo:rustc-link-search=native={}", folder.display());
    println!("cargo:rustc-link-lib=static=haabuvilk");
}
