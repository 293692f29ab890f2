//! Links SQLite where benches/run found it.
fn main() {
    println!("cargo:rerun-if-env-changed=CIX_SQLITE");
    if std::env::var_os("CIX_SQLITE").is_some() {
        println!("cargo:rustc-cfg=sqlite");
        println!("cargo:rustc-link-lib=sqlite3");
    }
}
