//! Lists of calls with what the judge has to say to each (engine.rs, the reference: records, who is told, poll; the text of
//! documents 01 and 02: refusals, the ledger's counts). The lists are those of cases/src/directed.rs, short random ones of
//! cases/src/lists.rs, and some that no line of `trace` can say: texts with line ends, an engine whose `new` was refused.
//!
//! One line a call, fields parted by a blank, numbers and bytes in hexadecimal: a letter; the length of the outbox; four numbers;
//! three texts; then the answer: refusal, records, matched, joined, alone, group, dropped, waiting, poll, mask, told, leave, and a
//! number that stands for the bytes of the records (see `digest`). Every byte of the outbox is 165 before the call; those behind the
//! records still are.
//!
//! | letter | call | numbers | texts |
//! |---|---|---|---|
//! | n | `new`, which begins a list | seed, time | |
//! | l d | new link, deleted link | index, flags, outcome; index, outcome | |
//! | a x | new address, deleted address | index | address |
//! | s | subscribe | | type |
//! | v w | advertise, deadvertise | | name, type, location; name |
//! | r | refresh | | |
//! | p | a datagram | time, sender, port, receiving address | datagram |
//! | t z | handle_timeout, reset_refresh_timer | time | |
use cases::directed;
use cases::lists::List;
use judge::call::{Answer, Call};
use judge::{read, Judge, Line, Program, MAX_TIME, OUTBOX, RECORD};

/// Calls of a list, each with the length of its outbox.
type Calls = Vec<(Call, usize)>;

pub fn lines() -> Vec<String> {
    // The lists by hand are whole; of the random ones every fourth is long enough to be deep.
    let by_hand = directed::all().len() as u64;
    let length = |number| if number < by_hand { usize::MAX } else { [70, 16, 16, 16][number as usize % 4] };
    let mut lists: Vec<Calls> = (0..240).map(|number| from_lines(List::new(Program::Trace, 2024, number), length(number))).collect();
    lists.extend(beyond_lines());
    lists.iter().flat_map(recorded).collect()
}

/// That a reply waits in a new engine, and that `new` sends other bytes than none.
pub fn wrong() -> Vec<String> {
    let new = Call::New { seed: 0, now: 0 };
    let waiting = line(&new, OUTBOX, &Answer { waiting: 1, ..Answer::default() });
    let right = line(&new, OUTBOX, &Answer::default());
    vec![waiting, right.replace(" 0\n", " 1\n")]
}

/// The first calls of a list of `trace`, from its accepted `new` on.
fn from_lines(mut list: List, length: usize) -> Calls {
    let mut calls = vec![];
    let mut lent = OUTBOX;
    for (line, _) in list.lines() {
        let line = line.strip_suffix(b"\n").unwrap_or(&line);
        match read(Program::Trace, line.strip_suffix(b"\r").unwrap_or(line)) {
            Some(Line::Outbox(length)) => lent = length,
            Some(Line::Call(Call::New { .. })) if !calls.is_empty() => (),
            Some(Line::Call(call)) => calls.push((call, lent)),
            None => (),
        }
    }
    let start = calls.iter().position(|(call, _)| matches!(call, Call::New { .. })).unwrap_or(calls.len());
    calls.drain(..start);
    calls.truncate(length);
    calls
}

fn beyond_lines() -> Vec<Calls> {
    let advertise = |name: &[u8], kind: &[u8], location: &[u8]| Call::Advertise { name: name.into(), kind: kind.into(), location: location.into() };
    let up = [
        Call::Link { index: 1, flags: 0x1041, outcome: 0 },
        Call::Addr { index: 1, address: vec![10, 0, 0, 1] },
        advertise(b"u", b"t", b"http://h/"),
    ];
    let ends = [
        advertise(b"u\n", b"t", b"/"),
        advertise(b"u", b"t\nNTS: ssdp:byebye", b"/"),
        advertise(b"u", b"t", b"/\t"),
        advertise(b"\ta\tb", b"t", b"/"),
        advertise(b"a\tb", b"t", b"/"),
        Call::Subscribe { kind: b"\n".into() },
        Call::Deadvertise { name: b"a\nb\xff".into() },
        Call::Refresh,
        Call::Timeout { now: 0 },
    ];
    // With room for all, and for the record of one message alone.
    let mut lists = vec![];
    for lent in [OUTBOX, RECORD] {
        for new in [Call::New { seed: 5, now: 7 }, Call::New { seed: 5, now: MAX_TIME + 1 }] {
            lists.push([&[new], &up[..], &ends[..]].concat().into_iter().map(|call| (call, lent)).collect());
        }
    }
    lists
}

fn recorded(calls: &Calls) -> Vec<String> {
    let mut judge = None;
    let mut lines = vec![];
    for (call, lent) in calls {
        let answer = match (call, &mut judge) {
            (Call::New { seed, now }, _) => {
                let (new, answer) = Judge::new(*seed, *now);
                judge = Some(new);
                answer
            }
            (_, Some(judge)) => judge.call(call, *lent),
            (_, None) => panic!("a list begins with `new`"),
        };
        lines.push(line(call, *lent, &answer));
    }
    assert!(judge.is_none_or(|judge| judge.partings.is_empty()), "the Rust and the documents part");
    lines
}

fn line(call: &Call, lent: usize, answer: &Answer) -> String {
    let (letter, numbers, texts): (char, Vec<u64>, Vec<&[u8]>) = match call {
        Call::New { seed, now } => ('n', vec![(*seed).into(), *now], vec![]),
        Call::Link { index, flags, outcome } => ('l', [*index, *flags, *outcome].map(u64::from).into(), vec![]),
        Call::DelLink { index, outcome } => ('d', [*index, *outcome].map(u64::from).into(), vec![]),
        Call::Addr { index, address } => ('a', vec![(*index).into()], vec![address]),
        Call::DelAddr { index, address } => ('x', vec![(*index).into()], vec![address]),
        Call::Subscribe { kind } => ('s', vec![], vec![kind]),
        Call::Advertise { name, kind, location } => ('v', vec![], vec![name, kind, location]),
        Call::Deadvertise { name } => ('w', vec![], vec![name]),
        Call::Refresh => ('r', vec![], vec![]),
        Call::Data { now, from, to, datagram } => {
            ('p', vec![*now, u32::from(from.address).into(), from.port.into(), u32::from(*to).into()], vec![datagram])
        }
        Call::Timeout { now } => ('t', vec![*now], vec![]),
        Call::Reset { now } => ('z', vec![*now], vec![]),
    };
    let mut line = format!("{letter} {lent:x}");
    for k in 0..4 {
        line += &format!(" {:x}", numbers.get(k).unwrap_or(&0));
    }
    for k in 0..3 {
        let hex: String = texts.get(k).unwrap_or(&&[][..]).iter().map(|b| format!("{b:02x}")).collect();
        line += &format!(" {hex}");
    }
    let a = answer;
    let counts = [a.records.len() as u64, a.matched, a.joined, a.alone, a.group, a.dropped, a.waiting, a.poll];
    let numbers = [vec![a.refusal.into()], counts.into(), [a.mask, a.told, a.leave].map(u64::from).into(), vec![digest(answer)]];
    for number in numbers.concat() {
        line += &format!(" {number:x}");
    }
    line + "\n"
}

/// Of the records' bytes as they lie in the outbox: 257 times what came before, of which the lowest 55 bits count, and the byte.
fn digest(answer: &Answer) -> u64 {
    let bytes = answer.records.iter().flat_map(|record| record.bytes());
    bytes.fold(0, |sum, byte| (sum % (1 << 55)) * 257 + u64::from(byte))
}
