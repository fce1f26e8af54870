//! Datagrams and builds with the answers of the unchanged message.rs. The inputs are a sample of cases/src/datagrams.rs and
//! cases/src/builds.rs; the live comparison (compare-message) runs through all of them.
//!
//! One line a case: a letter, nine columns of four hexadecimal digits, then bytes, two digits each; one blank between.
//!
//! - `p`, parse: length of the datagram; kind (1 alive, 2 byebye, 3 search, 4 response, or refusal 7 or 8); start and
//!   length of the three places (0 where there is none); MX; then the datagram. The kind, the texts and MX are message.rs's
//!   own; a place is where that text stands.
//! - `s` `r` `n` `b`, build_search, response, notify, byebye: count of the bytes; refusal; length of the message; lengths
//!   of the three texts; length of the buffer; 0; 0; then the texts and the message. The message is message.rs's own.
use cases::builds::{builds, Build};
use cases::datagrams;
use cases::dice::Dice;
use judge::messages::{parse, Kind};

pub fn lines() -> Vec<String> {
    let mut dice = Dice::new(2024, 7);
    let mut lines: Vec<String> = sample(&mut dice).iter().map(|datagram| parse_line(datagram)).collect();
    lines.extend(builds(&mut dice, 300).iter().map(build_line));
    lines
}

/// That an empty datagram is a search, that a byebye is built into no room, and that one ends in a zero.
pub fn wrong() -> Vec<String> {
    let byebye = Build { kind: Kind::ByeBye, texts: vec![b"t".into(), b"u".into()], room: 4096 };
    vec![
        line('p', &[0, 3, 0, 0, 0, 0, 0, 0, 0], b""),
        line('b', &[2, 0, 0, 1, 1, 0, 0, 0, 0], b"tu"),
        build_line(&byebye).replace("0a\n", "00\n"),
    ]
}

/// The well-formed ones cut at every byte of the shortest, and one in so many of each further kind.
fn sample(dice: &mut Dice) -> Vec<Vec<u8>> {
    let mut all = datagrams::well_formed();
    let shortest = all[4].clone();
    all.extend((0..shortest.len()).map(|n| shortest[..n].to_vec()));
    all.extend(datagrams::every_set_of_headers().into_iter().step_by(13));
    all.extend(datagrams::cut_and_replaced().into_iter().step_by(1511));
    all.extend(datagrams::reordered_and_doubled().into_iter().step_by(7));
    all.extend(datagrams::odd_white_space().into_iter().step_by(19));
    all.extend((0..600).map(|_| datagrams::random(dice)));
    all
}

fn parse_line(datagram: &[u8]) -> String {
    let answer = parse(datagram);
    let [a, b, c] = answer.places;
    let places = [a.start, a.len, b.start, b.len, c.start, c.len];
    line('p', &[&[datagram.len(), answer.kind as usize], &places[..], &[answer.mx.into()]].concat(), datagram)
}

fn build_line(build: &Build) -> String {
    let (refusal, message) = match build.kind.build(&build.texts, build.room) {
        Ok(message) => (0, message),
        Err(refusal) => (refusal as usize, vec![]),
    };
    let letter = match build.kind {
        Kind::Search => 's',
        Kind::Response => 'r',
        Kind::Notify => 'n',
        Kind::ByeBye => 'b',
    };
    let length = |k: usize| build.texts.get(k).map_or(0, Vec::len);
    let bytes = [build.texts.concat(), message.clone()].concat();
    let columns = [bytes.len(), refusal, message.len(), length(0), length(1), length(2), build.room, 0, 0];
    line(letter, &columns, &bytes)
}

fn line(letter: char, columns: &[usize], bytes: &[u8]) -> String {
    let columns: String = columns.iter().map(|n| format!(" {n:04x}")).collect();
    let hex: String = bytes.iter().map(|b| format!("{b:02x}")).collect();
    format!("{letter}{columns} {hex}\n")
}
