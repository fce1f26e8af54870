//! Texts and buffers for the four `build_*`: at and above each size, not good, empty, in buffers that just fit.
use crate::datagrams::BLANKS;
use crate::dice::Dice;
use judge::messages::Kind;

pub struct Build {
    pub kind: Kind,
    pub texts: Vec<Vec<u8>>,
    pub room: usize,
}

/// `count` builds; most are accepted, and in every fourth the buffer is one byte short, just fits or is empty.
pub fn builds(dice: &mut Dice, count: usize) -> Vec<Build> {
    (0..count).map(|_| build(dice)).collect()
}

fn build(dice: &mut Dice) -> Build {
    let kind = dice.pick(&Kind::ALL);
    let texts: Vec<Vec<u8>> = kind.sizes().iter().map(|size| text(dice, *size)).collect();
    let needed = kind.build(&texts, usize::MAX).map_or(300, |text| text.len());
    let room = match dice.below(8) {
        0 => needed,
        1 => needed - 1,
        2 => dice.below(needed),
        3 => 0,
        4 => needed + 1,
        _ => needed + dice.below(200),
    };
    Build { kind, texts, room }
}

fn text(dice: &mut Dice, size: usize) -> Vec<u8> {
    let sample = ["", "t", "t:1", "ssdp:all", "uuid:1::t:1", "http://h:80/d", "a b", "\u{e9}", "\u{1f600}:1", ": "];
    match dice.below(12) {
        0 => "y".repeat(size).into(),
        1 => "z".repeat(size - 2 * dice.below(10)).into(),
        2 if dice.once_in(2) => "x".repeat(size + 1).into(),
        3 if dice.once_in(2) => format!("{}t", dice.pick(&BLANKS)).into(),
        4 if dice.once_in(2) => format!("t{}", dice.pick(&BLANKS)).into(),
        5 => format!("t{}u", dice.pick(&BLANKS)).into(),
        6 if dice.once_in(3) => dice.pick(&[&b"\xff"[..], b"a\nb", b"a\rb", b"\xed\xa0\x80", b"\xc3", b"\xe2\x82"]).into(),
        _ => dice.pick(&sample[..9]).into(),
    }
}
