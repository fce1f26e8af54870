//! `bench-message`: parse and the four builds beside the unchanged message.rs, through the static library of crates/message_c.
mod clock;
mod ours;

use cases::datagrams::{built, well_formed};
use clock::{head, row};
use cotton_ssdp::message;
use judge::messages::{parse, Kind};
use std::hint::black_box;

const TYPE: &str = "urn:schemas-upnp-org:service:ContentDirectory:1";
const NAME: &str = "uuid:deadbeef::urn:schemas-upnp-org:service:ContentDirectory:1";
const LOCATION: &str = "http://192.168.100.200:49152/description.xml";

fn main() {
    let [notify, byebye, response] = [0, 1, 2].map(|k| well_formed().swap_remove(k));
    let search = built(|b| message::build_search(b, TYPE));
    head();
    for (what, datagram) in [("a NOTIFY", notify), ("an M-SEARCH", search), ("a byebye", byebye), ("a response", response)] {
        assert_eq!(ours::parse(&datagram), parse(&datagram));
        let rust = || message::parse(black_box(&datagram)).is_ok();
        row(&format!("parse of {what}"), datagram.len(), || ours::parse(black_box(&datagram)), rust);
    }
    let texts = [TYPE, NAME, LOCATION];
    for kind in Kind::ALL {
        let (mut a, mut b) = ([0; 512], [0; 512]);
        let (_, length) = ours::build(kind, &mut a, &texts);
        assert_eq!(a[..length], kind.text(&texts));
        let ours = |b: &mut [u8]| ours::build(black_box(kind), black_box(b), &black_box(texts)).1;
        let rust = |b: &mut [u8]| built_by(black_box(kind), black_box(b), black_box(texts));
        row(&format!("build of {kind:?}"), length, || ours(&mut a), || rust(&mut b));
        let given = &texts[..kind.sizes().len()];
        let checked = |b: &mut [u8]| if given.iter().all(|text| is_good(black_box(text.as_bytes()))) { rust(b) } else { 0 };
        row(&format!("build of {kind:?}, the Rust with the texts checked"), length, || ours(&mut a), || checked(&mut b));
    }
}

fn built_by(kind: Kind, b: &mut [u8], [kind_text, name, location]: [&str; 3]) -> usize {
    match kind {
        Kind::Search => message::build_search(b, kind_text),
        Kind::Response => message::build_response(b, kind_text, name, location),
        Kind::Notify => message::build_notify(b, kind_text, name, location),
        Kind::ByeBye => message::build_byebye(b, kind_text, name),
    }
}

/// What refusals 3 and 4 ask, which our builds check and the Rust's do not.
fn is_good(text: &[u8]) -> bool {
    text.len() <= 135 && std::str::from_utf8(text).is_ok_and(|t| !t.contains(['\r', '\n']) && t.trim() == t)
}
