//! Datagrams: well-formed, damaged, with duplicated and reordered headers, with odd white space.
use crate::dice::Dice;
use cotton_ssdp::message;

pub const FIRST_LINES: [&str; 9] = [
    "NOTIFY * HTTP/1.1",
    "HTTP/1.1 200 OK",
    "M-SEARCH * HTTP/1.1",
    "notify * HTTP/1.1",
    "HTTP/1.1 200 OK ",
    " M-SEARCH * HTTP/1.1",
    "M-SEARCH * HTTP/1.1:",
    "M-SEARCH * HTTP/1.0",
    "",
];

/// White space of document 01's list, neighbours that are none, and characters of each length.
pub const BLANKS: [&str; 40] = [
    "", " ", "\t", "\u{b}", "\u{c}", "\r", "\u{8}", "\u{e}", "\u{1c}", "\u{1f}", "!", "\u{84}", "\u{85}", "\u{86}",
    "\u{9f}", "\u{a0}", "\u{a1}", "\u{167f}", "\u{1680}", "\u{1681}", "\u{180e}", "\u{1fff}", "\u{2000}", "\u{2005}",
    "\u{200a}", "\u{200b}", "\u{2027}", "\u{2028}", "\u{2029}", "\u{202a}", "\u{202e}", "\u{202f}", "\u{2030}",
    "\u{205e}", "\u{205f}", "\u{2060}", "\u{2fff}", "\u{3000}", "\u{3001}", "\u{feff}",
];

const KEYS: [&str; 14] =
    ["NT", "NTS", "USN", "LOCATION", "ST", "MX", "nt", "Nts", "uSN", "location", "st", "mx", "HOST", "\u{17f}T"];

const ENDS: [&str; 5] = ["\r\n", "\r\n", "\r\n", "\n", "\r\r\n"];

/// The four messages that the Rust builds, and a search without MAN.
pub fn well_formed() -> Vec<Vec<u8>> {
    let (kind, name) = ("urn:schemas-upnp-org:device:Printer:1", "uuid:deadbeef::urn:schemas-upnp-org:device:Printer:1");
    let location = "http://192.168.100.200:49152/description.xml";
    vec![
        built(|b| message::build_notify(b, kind, name, location)),
        built(|b| message::build_byebye(b, kind, name)),
        built(|b| message::build_response(b, kind, name, location)),
        built(|b| message::build_search(b, kind)),
        b"M-SEARCH * HTTP/1.1\r\nST: ssdp:all\r\nMX: 3\r\n\r\n".to_vec(),
    ]
}

pub fn built(build: impl Fn(&mut [u8]) -> usize) -> Vec<u8> {
    let mut buffer = [0; 1024];
    let length = build(&mut buffer);
    buffer[..length].to_vec()
}

/// Every first line with every set of the six headers; NTS and MX also with values that are refused.
pub fn every_set_of_headers() -> Vec<Vec<u8>> {
    let mut all = vec![];
    for first in FIRST_LINES {
        for set in 0..16 {
            for nts in ["", "NTS: ssdp:alive\r\n", "NTS: ssdp:byebye\r\n", "NTS: ssdp:Alive\r\n", "NTS:\r\n"] {
                for mx in ["", "MX: 1\r\n", "MX: 0\r\n", "MX: 255\r\n", "MX: 256\r\n", "MX: +007\r\n", "MX: -1\r\n"] {
                    let mut text = format!("{first}\r\n{nts}{mx}");
                    for (bit, header) in ["NT: t\r\n", "USN: u\r\n", "LOCATION: /\r\n", "ST: s\r\n"].iter().enumerate() {
                        text += if set >> bit & 1 == 1 { header } else { "" };
                    }
                    all.push(text.into_bytes());
                }
            }
        }
    }
    all
}

/// Each well-formed message cut at every byte, and with each byte replaced by every value.
pub fn cut_and_replaced() -> Vec<Vec<u8>> {
    let mut all = vec![];
    for message in well_formed() {
        all.extend((0..=message.len()).map(|n| message[..n].to_vec()));
        for place in 0..message.len() {
            for byte in 0..=255 {
                let mut damaged = message.clone();
                damaged[place] = byte;
                all.push(damaged);
            }
        }
    }
    all
}

/// The headers of each well-formed message in every order of the first five, and each line doubled with another value.
pub fn reordered_and_doubled() -> Vec<Vec<u8>> {
    let mut all = vec![];
    for message in well_formed() {
        let text = String::from_utf8(message).unwrap();
        let lines: Vec<&str> = text.split_inclusive('\n').collect();
        for order in 0..120 {
            let mut rest: Vec<&str> = lines[1..].to_vec();
            let mut taken = String::from(lines[0]);
            let mut code = order;
            for width in [5, 4, 3, 2, 1] {
                if width <= rest.len() {
                    taken += rest.remove(code % width);
                    code /= width;
                }
            }
            all.push((taken + &rest.concat()).into_bytes());
        }
        for place in 1..lines.len() {
            let Some((key, _)) = lines[place].split_once(':') else {
                continue;
            };
            for value in ["", " ", "x", "7", "0", "256", "ssdp:alive", "ssdp:byebye"] {
                for (at, key) in [(place, key.to_lowercase()), (place + 1, key.into()), (lines.len(), key.to_lowercase())] {
                    let doubled = format!("{}{key}:{value}\r\n{}", lines[..at].concat(), lines[at..].concat());
                    all.push(doubled.into_bytes());
                }
            }
        }
    }
    all
}

/// Each blank around each part of a header line, and in place of a whole value.
pub fn odd_white_space() -> Vec<Vec<u8>> {
    let mut all = vec![];
    for a in BLANKS {
        for b in BLANKS {
            all.push(format!("M-SEARCH * HTTP/1.1\r\nST:{a}{b}t:1{b}{a}\r\nMX:{b}3{a}\r\n").into_bytes());
            all.push(format!("HTTP/1.1 200 OK\nUSN: {a}x{b}\nST:{a}{b}\nLOCATION:{b}").into_bytes());
            all.push(format!("NOTIFY * HTTP/1.1\r\n{a}NT{b}: t\r\nNT: u\r\nNTS:{b}ssdp:byebye{a}\r\nUSN:u{a}").into_bytes());
            all.push(format!("M-SEARCH * HTTP/1.1{a}\r\nST: t\r\nMX: 1{b}").into_bytes());
        }
    }
    all
}

/// Any datagram: parts thrown together so that most are nearly right.
pub fn random(dice: &mut Dice) -> Vec<u8> {
    let mut text = String::new();
    if !dice.once_in(12) {
        text += FIRST_LINES[if dice.once_in(6) { dice.below(9) } else { dice.below(3) }];
        text += dice.pick(&ENDS);
    }
    for _ in 0..dice.below(12) {
        text += &random_header(dice);
    }
    let mut bytes = text.into_bytes();
    if dice.once_in(8) && !bytes.is_empty() {
        let place = dice.below(bytes.len());
        bytes[place] = dice.byte();
    }
    if dice.once_in(10) {
        bytes.truncate(dice.below(bytes.len() + 1));
    }
    bytes
}

fn random_header(dice: &mut Dice) -> String {
    let odd = |dice: &mut Dice| if dice.once_in(3) { dice.pick(&BLANKS) } else { "" };
    let key = KEYS[if dice.once_in(3) { dice.below(14) } else { dice.below(6) }];
    let value = match key.to_ascii_uppercase().as_str() {
        "NTS" => dice.pick(&["ssdp:alive", "ssdp:alive", "ssdp:byebye", "ssdp:byebye", "ssdp:update", "SSDP:alive"]),
        "MX" => dice.pick(&["1", "3", "5", "+2", "0004", "255", "256", "0", "", "+", "-1", "1x", "\u{663}"]),
        _ => dice.pick(&["t:1", "t", "uuid:1", "http://h/d", "", "ssdp:all", "x:y:z", "\u{e9}", "\u{20ac}", "\u{1f600}"]),
    };
    let colon = if dice.once_in(30) { "" } else { ":" };
    format!("{}{key}{}{colon}{}{value}{}{}", odd_key(dice), odd_key(dice), odd(dice), odd(dice), dice.pick(&ENDS))
}

fn odd_key(dice: &mut Dice) -> &'static str {
    if dice.once_in(25) {
        dice.pick(&BLANKS)
    } else {
        ""
    }
}
