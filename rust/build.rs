//! Links libcix.a, which `rt lib` in crates/cix writes. CIX_LIB names another folder that has it.
use std::env;

fn main() {
    let here = env::var("CARGO_MANIFEST_DIR").unwrap();
    let lib = env::var("CIX_LIB").unwrap_or(format!("{here}/../crates/cix/out"));
    println!("cargo:rerun-if-env-changed=CIX_LIB");
    println!("cargo:rerun-if-changed={lib}/libcix.a");
    println!("cargo:rustc-link-search=native={lib}");
    println!("cargo:rustc-link-lib=static=cix");
}
