//! Texts at the edges of document 01's 'Text rules'.
use crate::datagrams::BLANKS;
use crate::dice::Dice;

/// Bytes around every bound of RFC 3629's ranges.
const SECONDS: [u8; 9] = [0x00, 0x7F, 0x80, 0x8F, 0x90, 0x9F, 0xA0, 0xBF, 0xC0];
const FURTHER: [u8; 4] = [0x7F, 0x80, 0xBF, 0xC0];

/// For UTF-8: every byte; every lead byte with second and further bytes at, one below and one above each bound; cut
/// sequences; a bad or long character at each place of an ASCII text; mixed texts.
pub fn for_utf8(dice: &mut Dice) -> Vec<Vec<u8>> {
    let mut all = vec![vec![]];
    all.extend((0..=255).map(|b| vec![b]));
    for lead in 0xC0..=0xFF {
        for second in SECONDS {
            all.push(vec![lead, second]);
            if lead >= 0xE0 {
                all.extend(FURTHER.map(|third| vec![lead, second, third]));
            }
            if (0xF0..=0xF5).contains(&lead) {
                all.extend(FURTHER.map(|third| vec![lead, second, third, 0x80]));
                all.extend(FURTHER.map(|fourth| vec![lead, second, 0xBF, fourth]));
            }
        }
    }
    for point in [0x7F, 0x80, 0x7FF, 0x800, 0xD7FF, 0xE000, 0xFFFF, 0x10000, 0x10FFFF] {
        let c = char::from_u32(point).unwrap().to_string().into_bytes();
        for cut in 1..=c.len() {
            all.push(c[..cut].to_vec());
            all.push([&c[..cut], b"a"].concat());
            all.push([b"a", &c[..cut], &c].concat());
            all.push([&c, &c[cut..]].concat());
        }
    }
    for place in 0..40 {
        for odd in [&b"\xff"[..], b"\x80", b"\xc3\xa9", b"\xe2\x82\xac", b"\xed\xa0\x80", b"\xf0\x9f\x98\x80", b"\xf0\x9f"] {
            let mut text = vec![b'x'; 40];
            text.splice(place..place, odd.iter().copied());
            all.push(text);
        }
    }
    all.extend((0..300).map(|_| mixed(dice)));
    all
}

/// For lines: every text of up to five of a letter, an accented letter, CR and LF; an end at each place of a longer text.
pub fn for_lines() -> Vec<String> {
    let mut all = vec![String::new()];
    let mut from = 0;
    for _ in 0..5 {
        let upto = all.len();
        for k in from..upto {
            for c in ["a", "\u{e9}", "\r", "\n"] {
                all.push(all[k].clone() + c);
            }
        }
        from = upto;
    }
    for place in 0..40 {
        for end in ["\n", "\r\n", "\r\r\n", "\n\n", "\r", "\r\n\r\n"] {
            all.push("h".repeat(place) + end + &"i".repeat(40 - place));
        }
    }
    all
}

/// For white space: each listed code point and its neighbours alone, at each end, inside, and in pairs.
pub fn for_trim(dice: &mut Dice) -> Vec<String> {
    let mut all = vec![];
    for a in BLANKS {
        all.extend([a.into(), format!("{a}x"), format!("x{a}"), format!("{a}x{a}"), format!("x{a}y"), format!(" {a} ")]);
        let b = dice.pick(&BLANKS);
        all.extend([format!("{a}{b}"), format!("{a}{b}x y{b}{a}"), format!("{a}\u{e9}{b}"), format!("{a}\u{20ac}{b}")]);
    }
    for length in 0..40 {
        all.push(" ".repeat(length) + "z" + &"\u{3000}".repeat(length % 7));
        all.push("\u{a0}".repeat(length));
    }
    all
}

/// For numbers: around the largest of each width, with signs, zeros and characters that are no digits.
pub fn for_numbers(dice: &mut Dice) -> Vec<String> {
    let mut all: Vec<String> = vec![];
    for largest in [u8::MAX.into(), u16::MAX.into(), u32::MAX.into(), u64::MAX] {
        for n in [largest / 10, largest - 1, largest, largest / 10 * 10] {
            all.extend([n.to_string(), format!("+{n}"), format!("00{n}"), format!("{n}0"), format!("{n}9"), format!("-{n}")]);
        }
        let above = (u128::from(largest) + 1).to_string();
        all.extend([above.clone(), format!("+{above}"), format!("000{above}"), (u128::from(largest) * 10 + 9).to_string()]);
    }
    let odd = ["", "+", "-", "++1", "+-1", "-+1", "1+", "-0", " 1", "1 ", "1_0", "0x1", "\u{663}", "\u{ff11}", "1\u{0}", "/", ":", "1/", "1:"];
    all.extend(odd.map(String::from));
    all.extend((0..128u8).map(|b| (b as char).to_string()));
    for length in 1..25 {
        all.extend(["9", "1", "0"].map(|digit| digit.repeat(length)));
    }
    for length in [30, 300, 2000] {
        all.extend([format!("{}7", "0".repeat(length)), format!("+{}256", "0".repeat(length)), "9".repeat(length)]);
    }
    all.extend((0..100).map(|_| (dice.next() >> dice.below(64)).to_string()));
    all
}

/// Pairs to compare: equal, one the start of the other, apart at each place, upper and lower case.
pub fn pairs(dice: &mut Dice) -> Vec<(Vec<u8>, Vec<u8>)> {
    let mut all = vec![];
    for length in 0..36 {
        let text: Vec<u8> = (0..length).map(|k| b'A' + k as u8 % 26).collect();
        all.push((text.clone(), text.clone()));
        all.push((text.to_ascii_lowercase(), text.clone()));
        all.push((text.clone(), [&text[..], b"z"].concat()));
        all.push(([&text[..], b"\0"].concat(), text.clone()));
        for byte in [0, 127, 255] {
            let mut other = text.clone();
            if length > 0 {
                other[dice.below(length)] = byte;
            }
            all.push((other, text.clone()));
        }
    }
    for a in 0..=255 {
        all.push((vec![a], vec![a.to_ascii_uppercase()]));
        all.push((vec![a], vec![a ^ 32]));
    }
    all
}

/// A byte or a short text and where to look for it.
pub fn hay(dice: &mut Dice) -> Vec<(Vec<u8>, Vec<u8>)> {
    let mut all = vec![(vec![], b":".to_vec()), (b"::".to_vec(), b":".to_vec()), (b"://".to_vec(), b"://".to_vec())];
    for place in 0..40 {
        let mut text = vec![b'.'; 40];
        text[place] = b':';
        all.push((text.clone(), b":".to_vec()));
        all.push((text[..place].to_vec(), b":".to_vec()));
        text[39 - place] = b':';
        all.push((text, b":".to_vec()));
    }
    for _ in 0..250 {
        let text = (0..dice.below(12)).map(|_| dice.pick(b":/a")).collect();
        all.push((text, b"://".to_vec()));
    }
    all
}

fn mixed(dice: &mut Dice) -> Vec<u8> {
    let parts: [&[u8]; 10] =
        [b"a", b"ab:", b"\r\n", b"\xc2\xa0", b"\xe3\x80\x80", b"\xf0\x9f\x98\x80", b"\xed\x9f\xbf", b"\xc3", b"\xe2\x80", b"\xff"];
    let good = dice.below(4) > 0;
    let upto = if good { 7 } else { 10 };
    (0..dice.below(24)).flat_map(|_| parts[dice.below(upto)].to_vec()).collect()
}
