//! Links the library that adapters/c/build.py makes, where it is.
use std::env::var;

fn main() {
    let here = var("CARGO_MANIFEST_DIR").expect("cargo sets it");
    let folder = format!("{here}/../c/out");
    println!("cargo:rerun-if-changed={folder}/libsigverify.so");
    println!("cargo:rustc-link-search=native={folder}");
    println!("cargo:rustc-link-lib=dylib=sigverify");
    println!("cargo:rustc-link-arg=-Wl,-rpath,{folder}");
}
