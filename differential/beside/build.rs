//! Build script: where `tools/build lib` writes, which is target/staticlib of the repository.
fn main() {
    let manifest = std::env::var("CARGO_MANIFEST_DIR").unwrap();
    let libraries = std::fs::canonicalize(format!("{manifest}/../../target/staticlib"));
    let libraries = libraries.expect("run `tools/build lib message_c` first");
    println!("cargo:rustc-link-search=native={}", libraries.display());
    println!("cargo:rerun-if-changed={}", libraries.display());
}
