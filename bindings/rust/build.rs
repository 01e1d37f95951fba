//! Links the static library that `rt lib` writes in crates/export: LISTOCHUR_LIB names its folder, ../../crates/export/out by
//! default.
use std::env;
use std::path::PathBuf;

fn main() {
    println!("cargo::rerun-if-env-changed=LISTOCHUR_LIB");
    let here = PathBuf::from(env::var_os("CARGO_MANIFEST_DIR").unwrap());
    let folder = env::var_os("LISTOCHUR_LIB").map_or_else(|| here.join("../../crates/export/out"), PathBuf::from);
    let library = folder.join("libexport.a");
    assert!(library.is_file(), "{} is missing: run `rt lib` in crates/export first, or set LISTOCHUR_LIB", library.display());
    println!("cargo::rerun-if-changed={}", library.display());
    println!("cargo::rustc-link-search=native={}", folder.display());
    println!("cargo::rustc-link-lib=static=export");
}
