//! Build script: finds libhost.a, which `tools/build lib host` writes to target/staticlib of the repository. `KOHLSILK_LIB`
//! names another folder.
use std::fs::{File, OpenOptions};
use std::io::Write;
use std::path::{Path, PathBuf};
use std::process::{Child, Command, ExitStatus};
use std::thread::sleep;
use std::time::{Duration, Instant, SystemTime};

fn main() {
    println!("cargo:rerun-if-env-changed=KOHLSILK_LIB");
    let folder = match std::env::var_os("KOHLSILK_LIB") {
        Some(folder) => PathBuf::from(folder),
        None => built_here(),
    };
    let library = folder.join("libhost.a");
    if !library.exists() {
        eprintln!("{} is not there: run `tools/build lib host`, or name its folder in KOHLSILK_LIB", library.display());
        std::process::exit(1);
    }
    println!("cargo:rerun-if-changed={}", library.display());
    println!("cargo:rustc-link-search=native={}", folder.display());
    println!("cargo:rustc-link-lib=static=host");
    // For the tests that link programs in C.
    println!("cargo:rustc-env=KOHLSILK_FOLDER={}", folder.display());
}

/// The crates that the library is made of.
const CRATES: [&str; 6] = ["text", "message", "message_c", "engine", "host", "host_c"];

/// The folders of a crate that it is proved from; beside them lies what `rt` makes.
const PARTS: [&str; 3] = ["src", "specs", "proofs"];

/// The status of `tools/build` where there is no `rt`.
const NO_RT: i32 = 127;

/// The repository's own, proved and built where it is not there yet or a crate has changed since. Without `rt` it is taken as it is.
fn built_here() -> PathBuf {
    let root = Path::new(&std::env::var("CARGO_MANIFEST_DIR").unwrap()).join("../..");
    let folder = root.join("target/staticlib");
    let parts = CRATES.iter().flat_map(|name| PARTS.map(|part| root.join("crates").join(name).join(part)));
    let parts: Vec<PathBuf> = parts.filter(|path| path.exists()).collect();
    for path in &parts {
        println!("cargo:rerun-if-changed={}", path.display());
    }
    let newest = parts.iter().filter_map(|path| changed(path)).max();
    if changed(&folder.join("libhost.a")) < newest {
        build_library(&root);
    }
    folder
}

/// Runs `tools/build lib host`. What it prints is shown where it fails, on stderr: cargo reads this script's stdout.
fn build_library(root: &Path) {
    let log = Path::new(&std::env::var("OUT_DIR").unwrap()).join("rt.log");
    let file = File::create(&log).unwrap();
    let mut build = Command::new(root.join("tools/build"));
    build.args(["lib", "host"]).stdout(file.try_clone().unwrap()).stderr(file);
    let ended = match build.spawn() {
        Ok(child) => wait_aloud(child),
        Err(error) => return println!("cargo:warning=tools/build cannot be run ({error}): libhost.a is taken as it is"),
    };
    if ended.code() == Some(NO_RT) {
        return println!("cargo:warning=rt cannot be run: libhost.a is taken as it is");
    }
    if !ended.success() {
        eprintln!("{}", String::from_utf8_lossy(&std::fs::read(log).unwrap()));
        std::process::exit(1);
    }
}

/// Waits for `rt`, which proves for minutes, and says every half minute that it still does.
fn wait_aloud(mut child: Child) -> ExitStatus {
    let begun = Instant::now();
    let mut said = 0;
    tell("kohlsilk: `tools/build lib host` proves the engine and writes libhost.a, which takes minutes");
    loop {
        if let Some(status) = child.try_wait().unwrap() {
            println!("cargo:warning=`tools/build lib host` took {} s", begun.elapsed().as_secs());
            return status;
        }
        if begun.elapsed().as_secs() >= said + 30 {
            said += 30;
            tell(&format!("kohlsilk: `tools/build lib host` is at work, {said} s so far"));
        }
        sleep(Duration::from_millis(200));
    }
}

/// Writes a line to the terminal, if there is one: what a build script prints cargo keeps to itself until the script has ended.
fn tell(line: &str) {
    if let Ok(mut terminal) = OpenOptions::new().write(true).open("/dev/tty") {
        // From the start of the line, over cargo's bar.
        let _ = write!(terminal, "\r{line:<100}\r\n");
    }
}

/// When a file, or the latest of a folder's files, was changed last.
fn changed(path: &Path) -> Option<SystemTime> {
    match std::fs::read_dir(path) {
        Ok(entries) => entries.filter_map(|entry| changed(&entry.ok()?.path())).max(),
        Err(_) => std::fs::metadata(path).ok()?.modified().ok(),
    }
}
