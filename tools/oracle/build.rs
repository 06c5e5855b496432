//! With the feature `library`: links librilvostam.a from where `tools/prove --library` writes it.
fn main() {
    if std::env::var_os("CARGO_FEATURE_LIBRARY").is_some() {
        let folder = concat!(env!("CARGO_MANIFEST_DIR"), "/../../target/staticlib");
        println!("cargo::rerun-if-changed={folder}/librilvostam.a");
        println!("cargo::rustc-link-search=native={folder}");
        println!("cargo::rustc-link-lib=static=rilvostam");
    }
}
