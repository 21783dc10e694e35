//! Links libwomm.a from the folder that WOMM_LIB names, by default `../target/staticlib` beside the bench.

use std::env;
use std::path::PathBuf;

fn main() {
    println!("cargo:rerun-if-env-changed=WOMM_LIB");
    let usual = || PathBuf::from(env::var_os("CARGO_MANIFEST_DIR").expect("set by cargo")).join("../../target/staticlib");
    let folder = env::var_os("WOMM_LIB").map_or_else(usual, PathBuf::from);
    println!("cargo:rerun-if-changed={}", folder.join("libwomm.a").display());
    if !folder.join("libwomm.a").exists() {
        println!(
            "cargo:warning=libwomm.a is not in {}: `tools/library` makes it; WOMM_LIB names another folder",
            folder.display()
        );
    }
    println!("cargo:rustc-link-search=native={}", folder.display());
    println!("cargo:rustc-link-lib=static=womm");
}
