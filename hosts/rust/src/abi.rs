//! The functions of libhost.a as they are declared in include/kohlsilk.h. All `unsafe` of the crate is here, and none of it
//! asks anything of a caller: the functions below take references and slices.
//!
//! Each declared function is proved to come back from any engine value, any numbers and any bytes, to read and write
//! nothing but what it is lent, and to keep nothing of it.

use crate::sizes::{HEAD_PLACES, LINKS, LINK_WIDTH, NAMES, NAME_COUNT, NUMBERS_WIDTH, SEARCH_WIDTH, SUBSCRIPTIONS, TEXTS_WIDTH};

type Head = [u64; HEAD_PLACES];
type Links = [u64; LINK_WIDTH * LINKS];
type Searches = [u8; SEARCH_WIDTH * SUBSCRIPTIONS];
type Numbers = [u64; NUMBERS_WIDTH * NAMES];
type Texts = [u8; TEXTS_WIDTH * NAMES];

/// The engine as the host holds it: the arrays that each call is lent. They are numbers alone, so that any bytes are a value of it.
#[repr(C)]
#[derive(Clone)]
#[cfg_attr(test, derive(PartialEq))]
pub struct EngineArrays {
    head: Head,
    links: Links,
    searches: Searches,
    numbers: Numbers,
    texts: Texts,
}

impl EngineArrays {
    /// Zeros, to be lent to `new`.
    pub const BLANK: EngineArrays = EngineArrays {
        head: [0; HEAD_PLACES],
        links: [0; LINK_WIDTH * LINKS],
        searches: [0; SEARCH_WIDTH * SUBSCRIPTIONS],
        numbers: [0; NUMBERS_WIDTH * NAMES],
        texts: [0; TEXTS_WIDTH * NAMES],
    };

    /// The rows of the names that are held: the numbers and the texts of each. A count above the table means the whole table.
    pub fn name_rows(&self) -> impl Iterator<Item = (&[u64], &[u8])> {
        let count = self.head[NAME_COUNT].min(NAMES as u64) as usize;
        self.numbers.chunks_exact(NUMBERS_WIDTH).zip(self.texts.chunks_exact(TEXTS_WIDTH)).take(count)
    }
}

#[repr(C)]
pub struct RawAnswer {
    pub refusal: u32,
    pub records: usize,
    pub matched: usize,
    pub joined: usize,
    pub alone: usize,
    pub group: usize,
    pub dropped: usize,
    pub waiting: usize,
    pub poll: u64,
    pub mask: u32,
    pub told: u32,
    pub leave: u32,
}

#[repr(C)]
pub struct Parsed {
    pub kind: u32,
    pub mx: u32,
    pub first: usize,
    pub first_len: usize,
    pub second: usize,
    pub second_len: usize,
    pub third: usize,
    pub third_len: usize,
}

#[repr(C)]
pub struct Written {
    pub refusal: u32,
    pub len: usize,
}

type Bytes = *const u8;
type Lent = *mut u8;

// The order of parameters is that of the header: a reference is a pointer, a slice a pointer and a length.
extern "C" {
    fn kohlsilk_lent_new(h: &mut Head, n: &Numbers, random_seed: u32, time: u64) -> RawAnswer;
    fn kohlsilk_lent_new_link(
        h: &mut Head,
        l: &mut Links,
        s: &Searches,
        n: &Numbers,
        t: &Texts,
        index: u32,
        flags: u32,
        outcome: u32,
        outbox: Lent,
        room: usize,
    ) -> RawAnswer;
    fn kohlsilk_lent_deleted_link(h: &mut Head, l: &mut Links, n: &Numbers, index: u32, outcome: u32) -> RawAnswer;
    fn kohlsilk_lent_new_address(
        h: &mut Head,
        l: &mut Links,
        s: &Searches,
        n: &Numbers,
        t: &Texts,
        index: u32,
        address: Bytes,
        len: usize,
        outbox: Lent,
        room: usize,
    ) -> RawAnswer;
    fn kohlsilk_lent_deleted_address(h: &mut Head, l: &mut Links, n: &Numbers, index: u32, address: Bytes, len: usize) -> RawAnswer;
    fn kohlsilk_lent_subscribe(
        h: &mut Head,
        l: &Links,
        s: &mut Searches,
        n: &Numbers,
        service_type: Bytes,
        len: usize,
        outbox: Lent,
        room: usize,
    ) -> RawAnswer;
    fn kohlsilk_lent_advertise(
        h: &mut Head,
        l: &Links,
        n: &mut Numbers,
        t: &mut Texts,
        name: Bytes,
        name_len: usize,
        service_type: Bytes,
        kind_len: usize,
        location: Bytes,
        location_len: usize,
        outbox: Lent,
        room: usize,
    ) -> RawAnswer;
    fn kohlsilk_lent_deadvertise(
        h: &mut Head,
        l: &Links,
        n: &mut Numbers,
        t: &mut Texts,
        name: Bytes,
        len: usize,
        outbox: Lent,
        room: usize,
    ) -> RawAnswer;
    fn kohlsilk_lent_refresh(h: &Head, l: &Links, s: &Searches, n: &Numbers, t: &Texts, outbox: Lent, room: usize) -> RawAnswer;
    fn kohlsilk_lent_on_data(
        h: &Head,
        s: &Searches,
        n: &mut Numbers,
        t: &mut Texts,
        time: u64,
        sender: u32,
        port: u16,
        receiver: u32,
        datagram: Bytes,
        len: usize,
    ) -> RawAnswer;
    fn kohlsilk_lent_handle_timeout(
        h: &mut Head,
        l: &Links,
        s: &Searches,
        n: &mut Numbers,
        t: &Texts,
        time: u64,
        outbox: Lent,
        room: usize,
    ) -> RawAnswer;
    fn kohlsilk_lent_reset_refresh_timer(h: &mut Head, n: &Numbers, time: u64) -> RawAnswer;
    fn kohlsilk_lent_announcement_need(h: &Head, l: &Links) -> usize;
    fn kohlsilk_lent_deadvertise_need(h: &Head, l: &Links, n: &Numbers, t: &Texts, name: Bytes, len: usize) -> usize;
    fn kohlsilk_lent_refresh_need(h: &Head, l: &Links, s: &Searches) -> usize;
    fn kohlsilk_lent_handle_timeout_need(h: &Head, l: &Links, s: &Searches, n: &Numbers, time: u64) -> usize;
    fn kohlsilk_lent_new_link_need(h: &Head, l: &Links, s: &Searches, index: u32, flags: u32) -> usize;
    fn kohlsilk_lent_new_address_need(h: &Head, l: &Links, s: &Searches, index: u32, address: Bytes, len: usize) -> usize;
    fn kohlsilk_parse(datagram: Bytes, n: usize) -> Parsed;
    fn kohlsilk_build_search(b: Lent, room: usize, st: Bytes, k: usize) -> Written;
    fn kohlsilk_build_response(b: Lent, room: usize, st: Bytes, k: usize, usn: Bytes, n: usize, location: Bytes, l: usize) -> Written;
    fn kohlsilk_build_notify(b: Lent, room: usize, nt: Bytes, k: usize, usn: Bytes, n: usize, location: Bytes, l: usize) -> Written;
    fn kohlsilk_build_byebye(b: Lent, room: usize, nt: Bytes, k: usize, usn: Bytes, n: usize) -> Written;
}

// SAFETY, of each call on an engine: its arrays are lent whole, apart from each other and, where the call changes them, apart from the slices, whose
// lengths are their own.

pub fn new(e: &mut EngineArrays, random_seed: u32, time: u64) -> RawAnswer {
    // SAFETY: as above.
    unsafe { kohlsilk_lent_new(&mut e.head, &e.numbers, random_seed, time) }
}

pub fn new_link(e: &mut EngineArrays, index: u32, flags: u32, outcome: u32, outbox: &mut [u8]) -> RawAnswer {
    let (h, l, room) = (&mut e.head, &mut e.links, outbox.len());
    // SAFETY: as above.
    unsafe { kohlsilk_lent_new_link(h, l, &e.searches, &e.numbers, &e.texts, index, flags, outcome, outbox.as_mut_ptr(), room) }
}

pub fn deleted_link(e: &mut EngineArrays, index: u32, outcome: u32) -> RawAnswer {
    // SAFETY: as above.
    unsafe { kohlsilk_lent_deleted_link(&mut e.head, &mut e.links, &e.numbers, index, outcome) }
}

pub fn new_address(e: &mut EngineArrays, index: u32, address: &[u8], outbox: &mut [u8]) -> RawAnswer {
    let (h, l, a, len, room) = (&mut e.head, &mut e.links, address.as_ptr(), address.len(), outbox.len());
    // SAFETY: as above.
    unsafe { kohlsilk_lent_new_address(h, l, &e.searches, &e.numbers, &e.texts, index, a, len, outbox.as_mut_ptr(), room) }
}

pub fn deleted_address(e: &mut EngineArrays, index: u32, address: &[u8]) -> RawAnswer {
    // SAFETY: as above.
    unsafe { kohlsilk_lent_deleted_address(&mut e.head, &mut e.links, &e.numbers, index, address.as_ptr(), address.len()) }
}

pub fn subscribe(e: &mut EngineArrays, service_type: &[u8], outbox: &mut [u8]) -> RawAnswer {
    let (h, s, k, len, room) = (&mut e.head, &mut e.searches, service_type.as_ptr(), service_type.len(), outbox.len());
    // SAFETY: as above.
    unsafe { kohlsilk_lent_subscribe(h, &e.links, s, &e.numbers, k, len, outbox.as_mut_ptr(), room) }
}

pub fn advertise(e: &mut EngineArrays, name: &[u8], service_type: &[u8], location: &[u8], outbox: &mut [u8]) -> RawAnswer {
    let (h, n, t, room) = (&mut e.head, &mut e.numbers, &mut e.texts, outbox.len());
    let (u, u_len, k, k_len, l, l_len) =
        (name.as_ptr(), name.len(), service_type.as_ptr(), service_type.len(), location.as_ptr(), location.len());
    // SAFETY: as above.
    unsafe { kohlsilk_lent_advertise(h, &e.links, n, t, u, u_len, k, k_len, l, l_len, outbox.as_mut_ptr(), room) }
}

pub fn deadvertise(e: &mut EngineArrays, name: &[u8], outbox: &mut [u8]) -> RawAnswer {
    let (h, n, t, len, room) = (&mut e.head, &mut e.numbers, &mut e.texts, name.len(), outbox.len());
    // SAFETY: as above.
    unsafe { kohlsilk_lent_deadvertise(h, &e.links, n, t, name.as_ptr(), len, outbox.as_mut_ptr(), room) }
}

pub fn refresh(e: &EngineArrays, outbox: &mut [u8]) -> RawAnswer {
    // SAFETY: as above.
    unsafe { kohlsilk_lent_refresh(&e.head, &e.links, &e.searches, &e.numbers, &e.texts, outbox.as_mut_ptr(), outbox.len()) }
}

pub fn on_data(e: &mut EngineArrays, time: u64, sender: u32, port: u16, receiver: u32, datagram: &[u8]) -> RawAnswer {
    let (n, t, d, len) = (&mut e.numbers, &mut e.texts, datagram.as_ptr(), datagram.len());
    // SAFETY: as above.
    unsafe { kohlsilk_lent_on_data(&e.head, &e.searches, n, t, time, sender, port, receiver, d, len) }
}

pub fn handle_timeout(e: &mut EngineArrays, time: u64, outbox: &mut [u8]) -> RawAnswer {
    let (h, n, room) = (&mut e.head, &mut e.numbers, outbox.len());
    // SAFETY: as above.
    unsafe { kohlsilk_lent_handle_timeout(h, &e.links, &e.searches, n, &e.texts, time, outbox.as_mut_ptr(), room) }
}

pub fn reset_refresh_timer(e: &mut EngineArrays, time: u64) -> RawAnswer {
    // SAFETY: as above.
    unsafe { kohlsilk_lent_reset_refresh_timer(&mut e.head, &e.numbers, time) }
}

/// Of `subscribe` and of `advertise`.
pub fn announcement_need(e: &EngineArrays) -> usize {
    // SAFETY: as above.
    unsafe { kohlsilk_lent_announcement_need(&e.head, &e.links) }
}

pub fn deadvertise_need(e: &EngineArrays, name: &[u8]) -> usize {
    // SAFETY: as above.
    unsafe { kohlsilk_lent_deadvertise_need(&e.head, &e.links, &e.numbers, &e.texts, name.as_ptr(), name.len()) }
}

pub fn refresh_need(e: &EngineArrays) -> usize {
    // SAFETY: as above.
    unsafe { kohlsilk_lent_refresh_need(&e.head, &e.links, &e.searches) }
}

pub fn handle_timeout_need(e: &EngineArrays, time: u64) -> usize {
    // SAFETY: as above.
    unsafe { kohlsilk_lent_handle_timeout_need(&e.head, &e.links, &e.searches, &e.numbers, time) }
}

pub fn new_link_need(e: &EngineArrays, index: u32, flags: u32) -> usize {
    // SAFETY: as above.
    unsafe { kohlsilk_lent_new_link_need(&e.head, &e.links, &e.searches, index, flags) }
}

pub fn new_address_need(e: &EngineArrays, index: u32, address: &[u8]) -> usize {
    // SAFETY: as above.
    unsafe { kohlsilk_lent_new_address_need(&e.head, &e.links, &e.searches, index, address.as_ptr(), address.len()) }
}

pub fn parse(datagram: &[u8]) -> Parsed {
    // SAFETY: `datagram` is lent for the call, and its length is the slice's.
    unsafe { kohlsilk_parse(datagram.as_ptr(), datagram.len()) }
}

pub fn build_search(b: &mut [u8], st: &[u8]) -> Written {
    // SAFETY: `b` is lent writable and apart from `st`; lengths are the slices'.
    unsafe { kohlsilk_build_search(b.as_mut_ptr(), b.len(), st.as_ptr(), st.len()) }
}

pub fn build_response(b: &mut [u8], st: &[u8], usn: &[u8], location: &[u8]) -> Written {
    let (k, n, l) = (st.len(), usn.len(), location.len());
    // SAFETY: `b` is lent writable and apart from the texts; lengths are the slices'.
    unsafe { kohlsilk_build_response(b.as_mut_ptr(), b.len(), st.as_ptr(), k, usn.as_ptr(), n, location.as_ptr(), l) }
}

pub fn build_notify(b: &mut [u8], nt: &[u8], usn: &[u8], location: &[u8]) -> Written {
    let (k, n, l) = (nt.len(), usn.len(), location.len());
    // SAFETY: `b` is lent writable and apart from the texts; lengths are the slices'.
    unsafe { kohlsilk_build_notify(b.as_mut_ptr(), b.len(), nt.as_ptr(), k, usn.as_ptr(), n, location.as_ptr(), l) }
}

pub fn build_byebye(b: &mut [u8], nt: &[u8], usn: &[u8]) -> Written {
    // SAFETY: `b` is lent writable and apart from the texts; lengths are the slices'.
    unsafe { kohlsilk_build_byebye(b.as_mut_ptr(), b.len(), nt.as_ptr(), nt.len(), usn.as_ptr(), usn.len()) }
}

#[cfg(test)]
mod needs;

#[cfg(test)]
mod tests {
    extern crate std;

    use super::*;
    use crate::sizes::*;
    use core::mem::{offset_of, size_of};
    use std::format;
    use std::io::Write;
    use std::process::{Command, Stdio};
    use std::string::String;
    use std::vec;
    use std::vec::Vec;

    const UP: u32 = 0x1041;

    fn row<T>(table: &[T], width: usize, k: usize) -> &[T] {
        &table[width * k..width * (k + 1)]
    }

    /// The rows of name k.
    fn name_row(e: &EngineArrays, k: usize) -> (&[u64], &[u8]) {
        (row(&e.numbers, NUMBERS_WIDTH, k), row(&e.texts, TEXTS_WIDTH, k))
    }

    /// Address number k of a link.
    fn address(link: u32, k: usize) -> [u8; 4] {
        [10, 0, link as u8, 1 + k as u8]
    }

    /// A text of `size` bytes that ends in number k.
    fn long(size: usize, k: usize) -> Vec<u8> {
        format!("{:0size$}", k).into_bytes()
    }

    /// The library writes each number and each text where this crate has its row: numbers that differ show up in their own places.
    #[test]
    fn the_library_has_this_layout() {
        let (mut e, mut outbox) = (EngineArrays::BLANK, vec![0; OUTBOX_SIZE]);
        e.head = [u64::MAX; HEAD_PLACES];
        assert_eq!(new(&mut e, 0x0102_0304, 7).poll, 7);
        assert_eq!(e.head, [0x0102_0304, 7, 0, 0, 0, 0]);
        assert_eq!(handle_timeout(&mut e, 7, &mut outbox).poll, 6047);
        assert_eq!(e.head[1..3], [6047, 1]);
        new_link(&mut e, 5, UP, 0, &mut outbox);
        new_address(&mut e, 5, &[10, 0, 0, 1], &mut outbox);
        assert_eq!(e.links[..4], [5, 1, 1, 0x0a00_0001]);
        subscribe(&mut e, b"one", &mut outbox);
        subscribe(&mut e, b"other", &mut outbox);
        assert_eq!(row(&e.searches, SEARCH_WIDTH, 1)[..6], *b"\x05other");
        advertise(&mut e, b"name", b"t:2", b"location", &mut outbox);
        on_data(&mut e, 100, 0x0a00_0009, 5000, 0x0a00_0001, b"M-SEARCH * HTTP/1.1\nST: t:01\nMX: 1\n");
        assert_eq!(e.head[3..], [1, 1, 2]);
        let (numbers, texts) = name_row(&e, 0);
        let due = 100 + 0x0102_0304 % 1000;
        assert_eq!(numbers, [4, 3, 8, 4, 2, due, 0x0a00_0009, 5000, 0x0a00_0001]);
        let (service_type, location) = (&texts[NAME_SIZE..], &texts[NAME_SIZE + TYPE_SIZE..]);
        let answer = &location[LOCATION_SIZE..];
        assert_eq!(
            (&texts[..4], &service_type[..3], &location[..8], &answer[..4]),
            (&b"name"[..], &b"t:2"[..], &b"location"[..], &b"t:01"[..])
        );
    }

    /// The library holds as many of each as this crate says, of texts as long, and no more; each stands in its row, up to the arrays' ends.
    #[test]
    fn the_library_has_these_sizes() {
        let (mut e, mut outbox) = (EngineArrays::BLANK, vec![0; OUTBOX_SIZE]);
        new(&mut e, 0, 0);
        for index in 1..=LINKS as u32 {
            assert_eq!(new_link(&mut e, index, UP, 0, &mut outbox).refusal, 0);
            for a in 0..=ADDRESSES {
                assert_eq!(new_address(&mut e, index, &address(index, a), &mut outbox).refusal, if a < ADDRESSES { 0 } else { 13 });
            }
        }
        assert_eq!(new_link(&mut e, 1 + LINKS as u32, UP, 0, &mut outbox).refusal, 13);
        for k in 0..LINKS {
            let (index, row) = (1 + k as u32, row(&e.links, LINK_WIDTH, k));
            assert_eq!(row[..3], [index.into(), 1, ADDRESSES as u64]);
            let held: Vec<u64> = (0..ADDRESSES).map(|a| u32::from_be_bytes(address(index, a)).into()).collect();
            assert_eq!(row[3..], held);
        }
        assert_eq!(subscribe(&mut e, &long(TYPE_SIZE + 1, 0), &mut outbox).refusal, 3);
        for k in 0..=SUBSCRIPTIONS {
            assert_eq!(subscribe(&mut e, &long(TYPE_SIZE, k), &mut outbox).refusal, if k < SUBSCRIPTIONS { 0 } else { 5 });
        }
        for k in 0..SUBSCRIPTIONS {
            let row = row(&e.searches, SEARCH_WIDTH, k);
            assert_eq!((usize::from(row[0]), &row[1..]), (TYPE_SIZE, &long(TYPE_SIZE, k)[..]));
        }
        for (name, service_type, location) in [(1, 0, 0), (0, 1, 0), (0, 0, 1)] {
            let texts = (&long(NAME_SIZE + name, 0), &long(TYPE_SIZE + service_type, 0), &long(LOCATION_SIZE + location, 0));
            assert_eq!(advertise(&mut e, texts.0, texts.1, texts.2, &mut outbox).refusal, 3);
        }
        for k in 0..=NAMES {
            let texts = (&long(NAME_SIZE, k), &long(TYPE_SIZE, k), &long(LOCATION_SIZE, k));
            assert_eq!(advertise(&mut e, texts.0, texts.1, texts.2, &mut outbox).refusal, if k < NAMES { 0 } else { 5 });
        }
        on_data(&mut e, 0, 1, 2, 3, b"M-SEARCH * HTTP/1.1\nST: ssdp:all\nMX: 1\n");
        on_data(&mut e, 0, 4, 2, 3, b"M-SEARCH * HTTP/1.1\nST: ssdp:all\nMX: 1\n");
        for k in 0..NAMES {
            let (numbers, texts) = name_row(&e, k);
            assert_eq!(numbers[..5], [NAME_SIZE as u64, TYPE_SIZE as u64, LOCATION_SIZE as u64, TYPE_SIZE as u64, 1]);
            assert_eq!(texts, [long(NAME_SIZE, k), long(TYPE_SIZE, k), long(LOCATION_SIZE, k), long(TYPE_SIZE, k)].concat());
        }
        assert_eq!(e.head[3..], [NAMES as u64, LINKS as u64, SUBSCRIPTIONS as u64]);
        assert_eq!(handle_timeout(&mut e, 1000, &mut outbox[1..]).refusal, 2);
        assert_eq!(handle_timeout(&mut e, 1000, &mut outbox).records, RECORDS);
    }

    /// Any bytes are an engine: every call comes back, reports no more records than an outbox has and writes nothing behind the outbox.
    #[test]
    fn any_bytes_are_an_engine() {
        let (mut e, mut bytes, mut dice) = (EngineArrays::BLANK, vec![0; OUTBOX_SIZE + 64], 1u64);
        let mut roll = || {
            dice = dice.wrapping_mul(6_364_136_223_846_793_005).wrapping_add(1_442_695_040_888_963_407);
            (dice >> 33) as u8
        };
        for round in 0..300 {
            // SAFETY: the bytes are those of `e`, which is numbers alone.
            let held = unsafe { core::slice::from_raw_parts_mut((&raw mut e).cast::<u8>(), size_of::<EngineArrays>()) };
            held.iter_mut().for_each(|byte| *byte = roll());
            // Counts and lengths that are in their bounds, too.
            if round % 2 == 0 {
                e.head[3..].copy_from_slice(&[NAMES as u64, LINKS as u64, SUBSCRIPTIONS as u64]);
                e.links.chunks_mut(LINK_WIDTH).for_each(|link| link[2] = ADDRESSES as u64);
                for numbers in e.numbers.chunks_mut(NUMBERS_WIDTH) {
                    numbers[..5].copy_from_slice(&[NAME_SIZE as u64, 3, 7, 5, (roll() % 3).into()]);
                }
            }
            let (outbox, behind) = bytes.split_at_mut(OUTBOX_SIZE);
            let index = e.links[0] as u32;
            let (mut name, mut address) = ([0; NAME_SIZE], [0; 4]);
            name.copy_from_slice(&e.texts[..NAME_SIZE]);
            address.copy_from_slice(&e.texts[..4]);
            let answers = [
                new_link(&mut e, index, UP, 0, outbox),
                new_address(&mut e, index, &address, outbox),
                subscribe(&mut e, b"t", outbox),
                advertise(&mut e, b"u", b"t", b"http://h/d", outbox),
                on_data(&mut e, 0, 1, 2, 3, b"M-SEARCH * HTTP/1.1\nST: ssdp:all\nMX: 1\n"),
                on_data(&mut e, 0, 1, 2, 3, b"NOTIFY * HTTP/1.1\nNT: t\nNTS: ssdp:byebye\nUSN: u\n"),
                refresh(&e, outbox),
                handle_timeout(&mut e, u64::MAX >> 1, outbox),
                deadvertise(&mut e, &name, outbox),
                deleted_address(&mut e, index, &address),
                deleted_link(&mut e, index, 0),
                reset_refresh_timer(&mut e, 0),
            ];
            assert!(answers.iter().all(|answer| answer.refusal <= 14 && answer.records <= RECORDS));
            assert!(behind.iter().all(|byte| *byte == 0));
        }
    }

    /// A count or a length above its table means the whole table, in reading too.
    #[test]
    fn any_numbers_are_names() {
        let mut e = EngineArrays::BLANK;
        assert_eq!(e.name_rows().count(), 0);
        (e.head, e.numbers, e.texts) = ([u64::MAX; HEAD_PLACES], [u64::MAX; NUMBERS_WIDTH * NAMES], [b'a'; TEXTS_WIDTH * NAMES]);
        let names: Vec<_> = e.name_rows().map(|(numbers, texts)| crate::Name::read(numbers, texts)).collect();
        let [name, service_type, location] = [NAME_SIZE, TYPE_SIZE, LOCATION_SIZE].map(|size| "a".repeat(size));
        let searcher = "255.255.255.255:65535".parse().unwrap();
        let reply = Some(crate::Reply::Searcher { due: u64::MAX, searcher });
        let whole = crate::Name { name: &name, service_type: &service_type, location: &location, reply };
        assert_eq!(names, [whole; NAMES]);
    }

    /// The C compiler has the header's sizes, and its structs with the same places.
    #[test]
    fn the_header_has_this_layout() {
        let mut source = String::from("#include <kohlsilk.h>\n");
        let mut claim = |what: &str, value: usize| source += &format!("_Static_assert({what} == {value}, \"{what}\");\n");
        claim("KOHLSILK_NAMES", NAMES);
        claim("KOHLSILK_SUBSCRIPTIONS", SUBSCRIPTIONS);
        claim("KOHLSILK_LINKS", LINKS);
        claim("KOHLSILK_ADDRESSES", ADDRESSES);
        claim("KOHLSILK_NAME_SIZE", NAME_SIZE);
        claim("KOHLSILK_TYPE_SIZE", TYPE_SIZE);
        claim("KOHLSILK_LOCATION_SIZE", LOCATION_SIZE);
        claim("KOHLSILK_RECORD", RECORD_SIZE);
        claim("KOHLSILK_RECORDS", RECORDS);
        claim("KOHLSILK_OUTBOX", OUTBOX_SIZE);
        claim("sizeof(struct kohlsilk_engine)", size_of::<EngineArrays>());
        claim("sizeof(struct kohlsilk_answer)", size_of::<RawAnswer>());
        claim("sizeof(struct kohlsilk_parsed)", size_of::<Parsed>());
        claim("sizeof(struct kohlsilk_written)", size_of::<Written>());
        claim("sizeof(((struct kohlsilk_engine *)0)->head)", size_of::<Head>());
        claim("sizeof(((struct kohlsilk_engine *)0)->links)", size_of::<Links>());
        claim("sizeof(((struct kohlsilk_engine *)0)->searches)", size_of::<Searches>());
        claim("sizeof(((struct kohlsilk_engine *)0)->numbers)", size_of::<Numbers>());
        claim("sizeof(((struct kohlsilk_engine *)0)->texts)", size_of::<Texts>());
        claim("offsetof(struct kohlsilk_engine, links)", offset_of!(EngineArrays, links));
        claim("offsetof(struct kohlsilk_engine, searches)", offset_of!(EngineArrays, searches));
        claim("offsetof(struct kohlsilk_engine, numbers)", offset_of!(EngineArrays, numbers));
        claim("offsetof(struct kohlsilk_engine, texts)", offset_of!(EngineArrays, texts));
        claim("offsetof(struct kohlsilk_answer, poll)", offset_of!(RawAnswer, poll));
        claim("offsetof(struct kohlsilk_answer, leave)", offset_of!(RawAnswer, leave));
        claim("KOHLSILK_JOIN_FAILED", crate::Refusal::JOIN_FAILED.number() as usize);
        let include = concat!(env!("CARGO_MANIFEST_DIR"), "/../../include");
        let mut cc = Command::new("cc");
        cc.args(["-std=c11", "-Wall", "-Wextra", "-Wpedantic", "-Werror", "-fsyntax-only", "-xc", "-I", include, "-"])
            .stdin(Stdio::piped());
        let mut cc = cc.spawn().unwrap();
        cc.stdin.take().unwrap().write_all(source.as_bytes()).unwrap();
        assert!(cc.wait().unwrap().success());
    }
}
