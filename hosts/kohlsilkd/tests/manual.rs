//! The manual page has every option of `--help` and no other.
use std::collections::BTreeSet;
use std::process::Command;

/// The words that follow each `lead`.
fn options<'a>(text: &'a str, lead: &str) -> BTreeSet<&'a str> {
    let word = |rest: &'a str| rest.split(|c: char| !c.is_ascii_lowercase() && c != '-').next().unwrap_or_default();
    text.split(lead).skip(1).map(word).filter(|word| !word.is_empty()).collect()
}

#[test]
fn every_option_stands_in_the_manual_page() {
    let said = Command::new(env!("CARGO_BIN_EXE_kohlsilkd")).arg("--help").output().unwrap();
    let said = String::from_utf8(said.stdout).unwrap();
    let help = options(&said, "--");
    let page = include_str!("../../dist/kohlsilkd.8");
    assert!(help.len() > 10, "{help:?}");
    assert_eq!(options(page, "Fl -"), help, "left: the page; right: --help");
    // Each is described, not only named.
    assert_eq!(options(page, ".It Fl -"), help, "left: what the page describes; right: --help");
}
