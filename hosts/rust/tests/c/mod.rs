//! Programs in C for the tests.
use std::process::{Command, Output};

pub const HOSTS: &str = concat!(env!("CARGO_MANIFEST_DIR"), "/..");

/// Builds the sources, which lie in hosts/, with the static library, and answers what the program prints.
pub fn printed(name: &str, sources: &[&str], arguments: &[&str]) -> String {
    let program = format!("{}/c-{name}", env!("CARGO_TARGET_TMPDIR"));
    let library = concat!(env!("KOHLSILK_FOLDER"), "/libhost.a");
    let sources = sources.iter().map(|source| format!("{HOSTS}/{source}"));
    let options = ["-std=c11", "-O2", "-Wall", "-Wextra", "-Wpedantic", "-Werror", "-Wl,-z,now", "-I"];
    done(Command::new("cc").args(options).arg(format!("{HOSTS}/../include")).args(sources).args([library, "-o", &program]));
    done(Command::new(program).args(arguments))
}

/// What a command prints. It must succeed.
pub fn done(command: &mut Command) -> String {
    let Output { status, stdout, stderr } = command.output().unwrap();
    assert!(status.success(), "{command:?}\n{}", String::from_utf8_lossy(&stderr));
    String::from_utf8(stdout).unwrap()
}
