//! `bench-text`: the text rules beside Rust's own functions, through the static library of crates/text_c. Before a text is
//! timed both sides must give the same answer.
mod clock;

use cases::datagrams::well_formed;
use clock::{head, row};
use std::hint::black_box;
use std::str::from_utf8;

#[repr(C)]
struct Cut {
    len: usize,
    next: usize,
}

#[repr(C)]
struct Part {
    start: usize,
    len: usize,
}

#[link(name = "text_c", kind = "static")]
extern "C" {
    fn text_is_utf8(s: *const u8, n: usize) -> bool;
    fn text_first_line(s: *const u8, n: usize) -> Cut;
    fn text_trim(s: *const u8, n: usize) -> Part;
    fn text_is_good(s: *const u8, n: usize) -> bool;
}

fn is_utf8(s: &[u8]) -> bool {
    unsafe { text_is_utf8(s.as_ptr(), s.len()) }
}

/// The lengths of the lines without their ends, added up, if the text is UTF-8.
fn lines(s: &[u8]) -> Option<usize> {
    let (mut rest, mut sum) = (s, 0);
    while !rest.is_empty() {
        let cut = unsafe { text_first_line(rest.as_ptr(), rest.len()) };
        sum += cut.len;
        rest = &rest[cut.next..];
    }
    is_utf8(s).then_some(sum)
}

fn rust_lines(s: &[u8]) -> Option<usize> {
    Some(from_utf8(s).ok()?.lines().map(str::len).sum())
}

fn trim(s: &str) -> &str {
    let part = unsafe { text_trim(s.as_ptr(), s.len()) };
    &s[part.start..][..part.len]
}

fn is_good(s: &str) -> bool {
    unsafe { text_is_good(s.as_ptr(), s.len()) }
}

/// Rust's strings are UTF-8 already, so the check stands beside it.
fn rust_is_good(s: &[u8]) -> bool {
    from_utf8(s).is_ok_and(|text| !text.contains(['\r', '\n']) && text.trim() == text)
}

fn main() {
    let notify = String::from_utf8(well_formed().swap_remove(0)).unwrap();
    let texts = [
        ("ASCII datagram", notify.clone()),
        ("the same with one \u{e9}", notify.replace("deadbeef", "deadbee\u{e9}")),
        ("Cyrillic", "\u{44f}".repeat(148)),
        ("kanji", "\u{8a9e}".repeat(99)),
        ("emoji", "\u{1f600}".repeat(74)),
        ("French words", "caf\u{e9} na\u{ef}ve, ".repeat(20)),
    ];
    head();
    for (what, text) in texts.iter().map(|(what, text)| (what, text.as_bytes())) {
        assert!(is_utf8(text) && from_utf8(text).is_ok());
        row(&format!("UTF-8, {what}"), text.len(), || is_utf8(black_box(text)), || from_utf8(black_box(text)).is_ok());
    }
    for (what, text) in texts[..2].iter().map(|(what, text)| (what, text.as_bytes())) {
        assert_eq!(lines(text), rust_lines(text));
        row(&format!("UTF-8 and lines, {what}"), text.len(), || lines(black_box(text)), || rust_lines(black_box(text)));
    }
    for text in [" http://192.168.100.200:49152/description.xml", " ssdp:alive", "\u{3000}a\u{2003}"] {
        assert_eq!(trim(text), text.trim());
        row(&format!("trim, `{}`", text.trim()), text.len(), || trim(black_box(text)).len(), || black_box(text).trim().len());
    }
    let name = "uuid:deadbeef::urn:schemas-upnp-org:device:Printer:1";
    assert!(is_good(name) && rust_is_good(name.as_bytes()));
    row("a good text", name.len(), || is_good(black_box(name)), || rust_is_good(black_box(name.as_bytes())));
}
