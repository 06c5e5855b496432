//! Links librilvostam.a: from RILVOSTAM_LIB_DIR, or from where `tools/prove --library` writes it.
fn main() {
    println!("cargo::rerun-if-env-changed=RILVOSTAM_LIB_DIR");
    let here = std::env::var("CARGO_MANIFEST_DIR").expect("cargo sets it");
    let folder = std::env::var("RILVOSTAM_LIB_DIR").unwrap_or(here + "/../../target/staticlib");
    println!("cargo::rerun-if-changed={folder}/librilvostam.a");
    println!("cargo::rustc-link-search=native={folder}");
    println!("cargo::rustc-link-lib=static=rilvostam");
}
