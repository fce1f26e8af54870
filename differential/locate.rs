//! Build script: tells a crate where the Rust lies, which is $COTTON_SRC or, without it, ../shared/docs/src beside the repository.
//! The files are read from there. Of engine.rs a copy is made in the build's own folder, with one edit: the reference (reference.rs).
mod reference;

use std::{env, fs, path::Path};

fn main() {
    let manifest = env::var("CARGO_MANIFEST_DIR").unwrap();
    let given = env::var("COTTON_SRC").unwrap_or(format!("{manifest}/../../../shared/docs/src"));
    let Ok(source) = fs::canonicalize(&given) else {
        panic!("the Rust sources are not at {given}: name their folder in COTTON_SRC");
    };
    println!("cargo:rerun-if-env-changed=COTTON_SRC");
    println!("cargo:rerun-if-changed={}", source.display());
    println!("cargo:rustc-env=COTTON_SRC={}", source.display());
    // udp.rs declares `pub mod error;`, a file that is not there: a copy of udp.rs stands beside our shim, as a copy too, since `rt ci` takes no link in a checkout.
    let out = env::var("OUT_DIR").unwrap();
    let shim = Path::new(&manifest).join("src/udp_error.rs");
    println!("cargo:rerun-if-changed={}", shim.display());
    put(&source.join("cotton-ssdp/src/udp.rs"), &Path::new(&out).join("udp.rs"));
    if shim.exists() {
        put(&shim, &Path::new(&out).join("error.rs"));
    }
    let published = fs::read_to_string(source.join("cotton-ssdp/src/engine.rs")).unwrap();
    let made = reference::reference(&published).unwrap_or_else(|error| panic!("{error}"));
    fs::write(Path::new(&out).join("engine.rs"), made).unwrap();
}

fn put(from: &Path, to: &Path) {
    let _ = fs::remove_file(to);
    fs::write(to, fs::read(from).unwrap()).unwrap();
}
