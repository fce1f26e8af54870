//! The one edit that makes the reference of the published engine.rs.
#[path = "../../reference.rs"]
mod reference;

use reference::reference;

const LINE: &str = "    let delay_ms = (self.random_seed % max_delay_ms) + 10;\n";

#[test]
fn the_line_once() {
    let around = |line: &str| format!("let a = 10;\n// {LINE}{line}let b = a + 10;");
    assert_eq!(reference(&around(LINE)), Ok(around("    let delay_ms = self.random_seed % max_delay_ms;\n")));
}

#[test]
fn the_line_twice_or_not_at_all() {
    for (wrong, count) in [(String::new(), 0), (LINE.repeat(2), 2), (LINE.replace("10", "11"), 0), (LINE.replace("    let", "// let"), 0)] {
        assert!(reference(&wrong).is_err_and(|error| error.contains(&format!("{count} times"))), "{wrong}");
    }
}
