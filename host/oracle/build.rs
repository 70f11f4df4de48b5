//! Links librvghash.a from the folder named by RVGHASH_LIB_DIR.

use std::env;
use std::path::Path;

fn main() {
    println!("cargo:rerun-if-changed=build.rs");
    println!("cargo:rerun-if-env-changed=RVGHASH_LIB_DIR");
    let dir = env::var("RVGHASH_LIB_DIR").expect("RVGHASH_LIB_DIR must name the folder of librvghash.a");
    let archive = Path::new(&dir).join("librvghash.a");
    assert!(archive.is_file(), "there is no {}", archive.display());
    println!("cargo:rerun-if-changed={}", archive.display());
    println!("cargo:rustc-link-search=native={dir}");
    println!("cargo:rustc-link-lib=static=rvghash");
}
