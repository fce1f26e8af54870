//! `hosts/install` into a folder: what it lays out, what the shared library exports, and the example in C built from there with
//! pkg-config alone.
mod c;

use c::{done, HOSTS};
use std::collections::BTreeSet;
use std::hash::{DefaultHasher, Hash, Hasher};
use std::path::Path;
use std::process::Command;
use std::sync::OnceLock;

/// The folder that was installed to, once for all tests: outside the checkout, where `rt ci` takes no link. The program is built apart from
/// the build that runs this test, which cargo may have locked.
fn installed() -> &'static str {
    static FOLDER: OnceLock<String> = OnceLock::new();
    FOLDER.get_or_init(|| {
        let mut checkout = DefaultHasher::new();
        HOSTS.hash(&mut checkout);
        let folder = std::env::temp_dir().join(format!("kohlsilk-installed-{:x}", checkout.finish()));
        let _ = std::fs::remove_dir_all(&folder);
        let build = concat!(env!("CARGO_TARGET_TMPDIR"), "/install-build");
        let environment = [("KOHLSILK_LIB", env!("KOHLSILK_FOLDER")), ("CARGO_TARGET_DIR", build)];
        done(Command::new(format!("{HOSTS}/install")).arg(&folder).env_remove("PREFIX").envs(environment));
        folder.to_str().unwrap().into()
    })
}

/// The files and links below a folder, by their paths from `root`.
fn files(folder: &Path, root: &Path) -> BTreeSet<String> {
    let entries = std::fs::read_dir(folder).unwrap().map(|entry| entry.unwrap());
    entries
        .flat_map(|entry| match entry.file_type().unwrap().is_dir() {
            true => files(&entry.path(), root),
            false => [entry.path().strip_prefix(root).unwrap().display().to_string()].into(),
        })
        .collect()
}

#[test]
fn what_is_laid_out() {
    let expected = [
        "etc/kohlsilkd.conf",
        "usr/bin/kohlsilkd",
        "usr/include/kohlsilk.h",
        "usr/lib/libkohlsilk.a",
        "usr/lib/libkohlsilk.so",
        "usr/lib/libkohlsilk.so.1",
        "usr/lib/libkohlsilk.so.1.0.0",
        "usr/lib/pkgconfig/kohlsilk.pc",
        "usr/lib/systemd/system/kohlsilkd.service",
        "usr/share/man/man8/kohlsilkd.8",
    ];
    let folder = Path::new(installed());
    assert_eq!(files(folder, folder), expected.map(String::from).into());
    for text in ["usr/lib/pkgconfig/kohlsilk.pc", "usr/lib/systemd/system/kohlsilkd.service", "usr/share/man/man8/kohlsilkd.8"] {
        let text = std::fs::read_to_string(folder.join(text)).unwrap();
        assert!(!text.contains("@PREFIX@") && !text.contains("@VERSION@"), "{text}");
    }
    assert_eq!(done(Command::new(folder.join("usr/bin/kohlsilkd")).arg("--version")), "kohlsilkd 1.0.0\n");
}

/// The functions that the header declares and does not have inline: their lines begin with what they answer.
fn declared() -> BTreeSet<String> {
    let header = include_str!("../../../include/kohlsilk.h");
    let answers = ["struct kohlsilk_", "size_t kohlsilk_"];
    let names = header.lines().filter(|line| answers.iter().any(|front| line.starts_with(front))).filter_map(|line| line.split_once('('));
    names.map(|(front, _)| front.rsplit(' ').next().unwrap().to_string()).collect()
}

#[test]
fn the_shared_library_exports_what_the_header_declares() {
    let library = format!("{}/usr/lib/libkohlsilk.so.1", installed());
    let exported = done(Command::new("nm").args(["--dynamic", "--defined-only", "--format=posix", &library]));
    let functions = exported.lines().filter(|line| line.contains(" T ")).map(|line| line.split(['@', ' ']).next().unwrap().to_string());
    assert_eq!(functions.collect::<BTreeSet<_>>(), declared());
    assert_eq!(declared().len(), 17 + 6);
    assert!(done(Command::new("readelf").args(["--dynamic", &library])).contains("Library soname: [libkohlsilk.so.1]"));
}

/// What `pkg-config` says of the library that was installed, as words.
fn flags(words: &[&str]) -> Vec<String> {
    let folder = installed();
    let mut command = Command::new("pkg-config");
    command
        .args(words)
        .arg("kohlsilk")
        .env("PKG_CONFIG_LIBDIR", format!("{folder}/usr/lib/pkgconfig"))
        .env("PKG_CONFIG_SYSROOT_DIR", folder);
    done(&mut command).split_ascii_whitespace().map(String::from).collect()
}

/// Builds the example with what pkg-config says and answers what it prints, and the libraries that it loads.
fn example(name: &str, options: &[&str], words: &[&str]) -> (String, String) {
    let program = format!("{}/{name}", env!("CARGO_TARGET_TMPDIR"));
    done(Command::new("cc").args(options).arg(format!("{HOSTS}/c/example.c")).args(["-o", &program]).args(flags(words)));
    let printed = done(Command::new(&program).env("LD_LIBRARY_PATH", format!("{}/usr/lib", installed())));
    (printed, done(Command::new("readelf").args(["--dynamic", &program])))
}

#[test]
fn the_example_is_built_with_pkg_config_alone() {
    if Command::new("pkg-config").arg("--version").output().is_err() {
        return eprintln!("pkg-config is not at hand: the example is not built with it");
    }
    let (shared, loads) = example("example-shared", &[], &["--cflags", "--libs"]);
    assert!(loads.contains("Shared library: [libkohlsilk.so.1]"), "{loads}");
    let (lone, loads) = example("example-static", &["-static"], &["--static", "--cflags", "--libs"]);
    assert!(!loads.contains("Shared library"), "{loads}");
    assert_eq!(shared, lone);
    // Document 01's example, as the session program prints it.
    let session = include_str!("../../../crates/session/stdout");
    assert_eq!(shared.lines().take(7).collect::<Vec<_>>(), session.lines().take(7).collect::<Vec<_>>());
    assert_eq!(shared, c::printed("example-archive", &["c/example.c"], &[]));
}

/// The version of systemd-analyze, or 0 where it is not at hand.
fn systemd() -> u32 {
    let said = Command::new("systemd-analyze").arg("--version").output().map(|output| output.stdout).unwrap_or_default();
    String::from_utf8_lossy(&said).split_ascii_whitespace().nth(1).and_then(|number| number.parse().ok()).unwrap_or(0)
}

/// systemd takes every line of the unit, and grades its exposure under 2 of 10.
#[test]
fn the_unit_is_verified() {
    if systemd() < 250 {
        return eprintln!("systemd-analyze 250 or newer is not at hand: the unit is not verified");
    }
    let unit = std::fs::read_to_string(format!("{}/usr/lib/systemd/system/kohlsilkd.service", installed())).unwrap();
    let here = concat!(env!("CARGO_TARGET_TMPDIR"), "/kohlsilkd.service");
    std::fs::write(here, unit.replace("/usr/bin/", &format!("{}/usr/bin/", installed()))).unwrap();
    done(Command::new("systemd-analyze").args(["verify", "--man=no", "--recursive-errors=no", here]));
    done(Command::new("systemd-analyze").args(["security", "--offline=yes", "--threshold=20", here]));
}
