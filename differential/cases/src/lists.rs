//! Whole lists of calls as lines of `session` or `trace`, each with what the judge has to say to it. A list is made with
//! the judge at its side: instants are chosen around the one that it wants to be woken at, and outboxes around what a call needs.
use crate::datagrams;
use crate::dice::Dice;
use crate::directed;
use judge::{read, Front, Line, Program, MAX_TIME, NAME_SIZE, OUTBOX, RECORD, TYPE_SIZE};

/// One list under way.
pub struct List {
    pub front: Front,
    program: Program,
    dice: Dice,
    clock: u64,
    directed: Option<String>,
}

const KINDS: [&str; 16] = [
    "t:1", "t:2", "t:3", "t:1", "t:2", "t", "ssdp:all", "t:+2", "t:003", "t:x", "t:18446744073709551615",
    "t:18446744073709551616", ":1", "", "urn:schemas-upnp-org:service:ContentDirectory:1", "upnp:rootdevice",
];
const NAMES: [&str; 14] =
    ["u1", "u2", "u3", "u", "u10", "u11", "a", "z", "~", "", "uuid:1::t:1", "\u{e9}", "\u{1f600}", "u1\t"];
const LOCATIONS: [&str; 12] = [
    "http://h/d", "http://h:80/d", "http://h:80", "/d", "", "://", "http://", "http://[::1]:80/d", "x://a/b://c:1/",
    "http://user@h:1/", "://://:/", "\u{e9}://\u{e9}/\u{e9}",
];
const ADDRESSES: [&str; 7] =
    ["10.0.0.1", "10.0.0.2", "10.0.0.3", "192.168.100.200", "255.255.255.255", "0.0.0.0", "169.254.1.1"];
const SENDERS: [&str; 5] = ["10.0.0.9\t5000", "10.0.0.9\t5001", "10.0.0.8\t5000", "10.0.0.7\t1900", "0.0.0.0\t0"];
const LINKS: [u32; 8] = [1, 2, 3, 1, 2, 3, 4, 4_294_967_295];
const FLAGS: [u32; 12] =
    [4161, 4161, 4161, 4161, 4096, 4097, 4160, 4163, 65, 0, 4_294_967_295, 4_294_963_199];
const SEEDS: [u32; 8] = [0, 1, 999, 4999, 5000, 0x0102_0304, 0xFF00_FF00, u32::MAX];

impl List {
    /// List number `number` of this seed; the first ones are written by hand.
    pub fn new(program: Program, seed: u64, number: u64) -> Self {
        let mut dice = Dice::new(seed, number);
        let clock = match dice.below(6) {
            0 => MAX_TIME - dice.next() % 900_000,
            1 => MAX_TIME - dice.next() % 3000,
            2 => dice.next() >> 1,
            _ => dice.next() % 20_000,
        };
        let directed = directed::all().into_iter().nth(number as usize);
        Self { front: Front::new(program), program, dice, clock, directed }
    }

    /// All lines of the list, each with its answer.
    pub fn lines(&mut self) -> Vec<(Vec<u8>, String)> {
        let mut lines = vec![];
        if let Some(text) = self.directed.take() {
            for line in text.split_inclusive('\n') {
                let answer = self.front.run(line.as_bytes());
                lines.push((line.into(), answer));
            }
            return lines;
        }
        for line in self.opening() {
            self.push_with_outbox(line, &mut lines);
        }
        for _ in 0..self.dice.below(400) {
            let line = self.line();
            self.push_with_outbox(line, &mut lines);
        }
        lines
    }

    /// The line; for `trace` now and then with an outbox around what its call needs, mostly again with enough, and mostly all bytes behind it.
    fn push_with_outbox(&mut self, line: Vec<u8>, lines: &mut Vec<(Vec<u8>, String)>) {
        let need = match self.need(&line) {
            Some(0) if self.dice.once_in(24) => 0,
            Some(need) if need > 0 && self.dice.once_in(4) => need,
            _ => return self.push(line, lines),
        };
        let lent = self.length_around(need);
        self.push(outbox(lent), lines);
        self.push(line.clone(), lines);
        if lent < need && !self.dice.once_in(4) {
            self.push(outbox(need), lines);
            self.push(line, lines);
        }
        if !self.dice.once_in(8) {
            self.push(outbox(OUTBOX), lines);
        }
    }

    /// The bytes that the call of a line of `trace` needs.
    fn need(&self, line: &[u8]) -> Option<usize> {
        match (self.program, read(self.program, line)?) {
            (Program::Trace, Line::Call(call)) => Some(self.front.judge.as_ref()?.need(&call)),
            _ => None,
        }
    }

    /// A length at, near and below what is needed.
    fn length_around(&mut self, need: usize) -> usize {
        match self.dice.below(10) {
            0..=3 => need.saturating_sub(1),
            4..=6 => need,
            7 => need + 1 + self.dice.below(RECORD),
            8 => need.saturating_sub(RECORD),
            _ => self.dice.below(need + 1),
        }
    }

    fn push(&mut self, mut line: Vec<u8>, lines: &mut Vec<(Vec<u8>, String)>) {
        line.extend(if self.dice.once_in(50) { &b"\r\n"[..] } else { b"\n" });
        let answer = self.front.run(&line);
        lines.push((line, answer));
    }

    /// `new`, and in half of the lists everything filled: three links of two addresses, eight names, four subscriptions.
    fn opening(&mut self) -> Vec<Vec<u8>> {
        let mut lines = vec![];
        if self.dice.once_in(10) {
            lines.push(b"refresh".to_vec());
            lines.push(format!("new\t{}\t{}", self.dice.next() as u32, MAX_TIME + 1).into());
        }
        let seed = if self.dice.once_in(2) { self.dice.pick(&SEEDS) } else { self.dice.next() as u32 };
        lines.push(format!("new\t{seed}\t{}", self.clock).into());
        if self.dice.once_in(2) {
            return lines;
        }
        for link in 1..=3 {
            lines.push(format!("link\t{link}\t{}\t0", self.dice.pick(&[4161, 4161, 4096])).into());
            for k in 0..=self.dice.below(2) {
                lines.push(format!("addr\t{link}\t10.{link}.0.{k}").into());
            }
        }
        for name in &NAMES[..5 + self.dice.below(4)] {
            lines.push(self.advertise(name.as_bytes()));
        }
        for _ in 0..self.dice.below(5) {
            let kind = self.kind();
            lines.push([b"subscribe\t", kind.as_slice()].concat());
        }
        lines
    }

    fn line(&mut self) -> Vec<u8> {
        match self.dice.below(100) {
            0..=27 => self.search(),
            28..=34 => self.news_of_peers(),
            35..=41 => self.damaged(),
            42..=59 => format!("timeout\t{}", self.instant()).into(),
            60..=70 => {
                let name = self.name();
                self.advertise(&name)
            }
            71..=75 => [b"deadvertise\t", self.name().as_slice()].concat(),
            76..=78 => [b"subscribe\t", self.kind().as_slice()].concat(),
            79..=84 => format!("link\t{}\t{}\t{}", self.link(), self.dice.pick(&FLAGS), self.outcome()).into(),
            85 => format!("dellink\t{}\t{}", self.link(), self.outcome()).into(),
            86..=90 => self.address("addr"),
            91..=92 => self.address("deladdr"),
            93 => b"refresh".to_vec(),
            94..=95 => format!("reset\t{}", self.instant()).into(),
            96..=97 if self.program == Program::Trace => self.trace_line(),
            _ => self.unreadable(),
        }
    }

    /// Around the instant that the engine wants to be woken at, around the clock, backward, or at the end of time.
    fn instant(&mut self) -> u64 {
        let poll = self.front.judge.as_ref().map_or(0, |judge| judge.poll());
        let near = match self.dice.below(24) {
            0..=6 => poll,
            7..=8 => poll.wrapping_add(1),
            9..=10 => poll.saturating_sub(1),
            11 => poll + self.dice.next() % 1_000_000,
            12 => self.clock.saturating_sub(self.dice.next() % 10_000),
            13 => 0,
            14 if self.dice.once_in(4) => MAX_TIME + self.dice.next() % 2,
            14 if self.dice.once_in(8) => u64::MAX - self.dice.next() % 2,
            _ => self.clock + self.dice.next() % 800,
        };
        if near <= MAX_TIME && !self.dice.once_in(3) {
            self.clock = near;
        }
        near
    }

    fn search(&mut self) -> Vec<u8> {
        let target = self.kind();
        let mx = self.dice.pick(&["1", "1", "2", "3", "5", "6", "255", "+1", "007", "0", "256"]);
        let text = [b"M-SEARCH * HTTP/1.1\r\nST: ", target.as_slice(), b"\r\nMX: ", mx.as_bytes(), b"\r\n\r\n"].concat();
        self.data(text)
    }

    fn news_of_peers(&mut self) -> Vec<u8> {
        let kind = self.kind();
        let headers = match self.dice.below(3) {
            0 => ["NOTIFY * HTTP/1.1\r\nNTS: ssdp:alive\r\nUSN: u\r\nLOCATION: /\r\nNT: ", "\r\n"],
            1 => ["NOTIFY * HTTP/1.1\r\nNTS: ssdp:byebye\r\nUSN: u\r\nNT:", "\r\n\r\n"],
            _ => ["HTTP/1.1 200 OK\r\nUSN:\r\nLOCATION: /\r\nst:", ""],
        };
        self.data([headers[0].as_bytes(), kind.as_slice(), headers[1].as_bytes()].concat())
    }

    fn damaged(&mut self) -> Vec<u8> {
        let datagram = match self.dice.below(4) {
            0 => {
                let mut whole = datagrams::well_formed().swap_remove(self.dice.below(5));
                whole.truncate(self.dice.below(whole.len()));
                whole
            }
            _ => datagrams::random(&mut self.dice),
        };
        self.data(datagram)
    }

    /// A `data` line where the datagram can be said in one, else `hexdata`.
    fn data(&mut self, datagram: Vec<u8>) -> Vec<u8> {
        let head = format!("{}\t{}\t{}\t", self.instant(), self.dice.pick(&SENDERS), self.dice.pick(&ADDRESSES));
        let said = datagram.split(|b| *b == b'\n').collect::<Vec<_>>();
        let (last, ended) = said.split_last().unwrap();
        let sayable = !datagram.contains(&b'|') && !last.ends_with(b"\r") && ended.iter().all(|line| line.ends_with(b"\r"));
        if self.program == Program::Trace && (!sayable || self.dice.once_in(4)) {
            let hex: String = datagram.iter().map(|b| format!("{b:02x}")).collect();
            return format!("hexdata\t{head}{hex}").into();
        }
        let text: Vec<&[u8]> = said.iter().map(|line| line.strip_suffix(b"\r").unwrap_or(line)).collect();
        [b"data\t", head.as_bytes(), &text.join(&b'|')].concat()
    }

    fn advertise(&mut self, name: &[u8]) -> Vec<u8> {
        let (kind, location) = (self.kind(), self.location());
        [b"advertise\t", name, b"\t", &kind, b"\t", &location].concat()
    }

    fn kind(&mut self) -> Vec<u8> {
        match self.dice.below(40) {
            0..=1 => sized("t:", TYPE_SIZE + self.dice.below(2), "1"),
            2 => sized("x", TYPE_SIZE + self.dice.below(2), ":1"),
            3 => self.odd_text(),
            4..=12 => self.dice.pick(&KINDS).as_bytes().to_vec(),
            _ => self.dice.pick(&KINDS[..7]).as_bytes().to_vec(),
        }
    }

    fn name(&mut self) -> Vec<u8> {
        match self.dice.below(40) {
            0..=1 => sized("u", NAME_SIZE + self.dice.below(2), "1"),
            2 => self.odd_text(),
            _ => self.dice.pick(&NAMES).as_bytes().to_vec(),
        }
    }

    fn location(&mut self) -> Vec<u8> {
        match self.dice.below(40) {
            0..=1 => sized("://", 120 + self.dice.below(2), "/"),
            2 => sized("http://h:1/", 120 + self.dice.below(2), "x"),
            3 => self.odd_text(),
            4..=20 => self.dice.pick(&LOCATIONS).as_bytes().to_vec(),
            _ => b"http://h:80/d".to_vec(),
        }
    }

    /// A text with white space or bytes that are no UTF-8 at its ends or inside.
    fn odd_text(&mut self) -> Vec<u8> {
        let bad: [&[u8]; 8] = [b"\xff", b"\xc0\x80", b"\xed\xa0\x80", b"\xf4\x90\x80\x80", b"\xe2\x80", b"\r", b"\x85", b"|"];
        let blank = |dice: &mut Dice| match dice.below(3) {
            0 => dice.pick(&bad).to_vec(),
            _ => dice.pick(&datagrams::BLANKS).replace('\t', " ").into_bytes(),
        };
        let (mut front, mut middle, mut back) = (vec![], vec![], vec![]);
        match self.dice.below(3) {
            0 => front = blank(&mut self.dice),
            1 => middle = blank(&mut self.dice),
            _ => back = blank(&mut self.dice),
        }
        [&front, b"t".as_slice(), &middle, b":1", &back].concat()
    }

    fn link(&mut self) -> u32 {
        if self.dice.once_in(40) {
            0
        } else {
            self.dice.pick(&LINKS)
        }
    }

    fn outcome(&mut self) -> u32 {
        self.dice.pick(&[0, 0, 0, 0, 0, 1, 7, u32::MAX])
    }

    fn address(&mut self, word: &str) -> Vec<u8> {
        format!("{word}\t{}\t{}", self.link(), self.dice.pick(&ADDRESSES)).into()
    }

    fn trace_line(&mut self) -> Vec<u8> {
        match self.dice.below(4) {
            0 => {
                let records = if self.dice.once_in(2) { self.dice.below(9) } else { self.dice.below(121) };
                let short = (RECORD * records).saturating_sub(self.dice.below(2));
                outbox(self.dice.pick(&[short, short, short, OUTBOX + 1, 300_000, 300_001]))
            }
            1 => outbox(OUTBOX),
            _ => {
                let length = self.dice.pick(&[0, 1, 3, 4, 4, 5, 15, 16, 16, 17, 32, 33]);
                let hex: String = (0..length).map(|_| format!("{:02x}", self.dice.below(3))).collect();
                format!("{}\t{}\t{hex}", self.dice.pick(&["hexaddr", "hexdeladdr"]), self.link()).into()
            }
        }
    }

    /// A line that prints `?`, or one that nearly does.
    fn unreadable(&mut self) -> Vec<u8> {
        let lines = [
            "", "\t", "refresh\t", "Refresh", " refresh", "refresh ", "new\t0\t0", "timeout", "timeout\t", "timeout\t+", "timeout\t-1",
            "timeout\t18446744073709551616", "reset\t1x", "link\t1\t4161", "link\t4294967296\t0\t0", "link\t1\t4161\t0\t0",
            "addr\t1\t10.0.0.256", "addr\t1\t10.0.0", "addr\t1\t10.0.0.1.1", "addr\t1\t10.00.0.1", "addr\t1\t10.0.0.1 ",
            "addr\t1\t+1.0.0.1", "addr\t1\t1.2.3.4.", "addr\t1\t1..3.4", "addr\t1\t.1.2.3", "addr\t1\t1.2.3.", "addr\t1\t0.0.0.00",
            "addr\t1\t1.2.3.1000", "addr\t1\t", "addr\t1\t0x1.0.0.1", "timeout\t++1", "timeout\t 1", "timeout\t1 ", "timeout\t00", "timeout\t+0",
            "hexaddr\t1\t0A0000fF", "hexaddr\t1\t0g000000", "hexaddr\t1\t0a0", "hexdata\t1\t1.2.3.4\t1\t1.2.3.4\t4E4f", "hexdata\t1\t1.2.3.4\t1\t1.2.3.4",
            "outbox", "outbox\t+62880", "outbox\t62880\t", "NEW\t0\t0", "data", "data\t", "datax\t1\t1.2.3.4\t1\t1.2.3.4\tx",
            "addr\t+1\t10.0.0.1", "deladdr\t0000000000000000000001\t10.0.0.2", "data\t1\t10.0.0.9\t1\t10.0.0.1",
            "data\t1\t10.0.0.9\t65536\t10.0.0.1\tx", "data\t1\t10.0.0.9\t65535\t10.0.0.1\t", "data\t1\t10.0.0.9\t1\t10.0.0.1\ta\tb|c",
            "advertise\tu\tt", "advertise\tu\tt\t/\t", "subscribe", "deadvertise", "dellink\t1", "outbox\t65537", "nonsense\t1",
        ];
        match self.dice.below(12) {
            0 => sized("deadvertise\t", 4095 + self.dice.below(3), "x"),
            1 => sized("y", 4097 + self.dice.below(70_000), "z"),
            2 => sized("timeout\t", 4094 + self.dice.below(4), "7").iter().map(|b| if *b == b'-' { b'0' } else { *b }).collect(),
            _ => self.dice.pick(&lines).as_bytes().to_vec(),
        }
    }
}

fn outbox(lent: usize) -> Vec<u8> {
    format!("outbox\t{lent}").into()
}

/// `start`, filled with `-` up to `length` bytes, `end` last; a `/` is filled with `/`.
fn sized(start: &str, length: usize, end: &str) -> Vec<u8> {
    let filler = if end == "/" { "/" } else if start == "t:" { "0" } else { "-" };
    let middle = filler.repeat(length - start.len() - end.len());
    [start, &middle, end].concat().into_bytes()
}
