//! Document 01, 'The session program', and the further lines of `trace`: from lines to calls, from answers to lines.
use crate::call::{Call, Peer};
use crate::text::number;
use crate::Judge;
use std::net::Ipv4Addr;

/// '`session` lends 62,880 bytes', and `trace` too until an `outbox` line.
pub const OUTBOX: usize = 62_880;

#[derive(Clone, Copy, PartialEq, Eq)]
pub enum Program {
    Session,
    Trace,
}

/// The state of one run of a program: no engine until a `new` is accepted.
pub struct Front {
    program: Program,
    lent: usize,
    pub judge: Option<Judge>,
    pub calls: u64,
}

/// What one readable line asks for.
pub enum Line {
    Call(Call),
    Outbox(usize),
}

impl Front {
    pub fn new(program: Program) -> Self {
        Self { program, lent: OUTBOX, judge: None, calls: 0 }
    }

    /// What the program prints for a whole input.
    pub fn run(&mut self, input: &[u8]) -> String {
        input.split_inclusive(|b| *b == b'\n').map(|line| self.line(bare(line))).collect()
    }

    /// What the program prints for one line, its end taken off.
    pub fn line(&mut self, line: &[u8]) -> String {
        self.answer(read(self.program, line)).unwrap_or("?\n".into())
    }

    fn answer(&mut self, line: Option<Line>) -> Option<String> {
        let answer = match (line?, &mut self.judge) {
            (Line::Call(Call::New { seed, now }), None) => {
                let (judge, answer) = Judge::new(seed, now);
                self.judge = (answer.refusal == 0).then_some(judge);
                answer
            }
            (Line::Call(Call::New { .. }), Some(_)) | (_, None) => return None,
            (Line::Outbox(lent), Some(_)) => {
                self.lent = lent;
                return Some("ok\n".into());
            }
            (Line::Call(call), Some(judge)) => judge.call(&call, self.lent),
        };
        self.calls += 1;
        let details = if self.program == Program::Trace { answer.details() } else { String::new() };
        Some(answer.line() + &details)
    }
}

/// What a line asks for; nothing where it is unreadable.
pub fn read(program: Program, line: &[u8]) -> Option<Line> {
    if line.len() > 4096 {
        return None;
    }
    // A datagram is the rest of its line, tabs included.
    let fields: Vec<&[u8]> = if line.starts_with(b"data\t") {
        line.splitn(6, |b| *b == b'\t').collect()
    } else {
        line.split(|b| *b == b'\t').collect()
    };
    let call = match *fields.as_slice() {
        [b"new", seed, now] => Call::New { seed: u32_of(seed)?, now: u64_of(now)? },
        [b"link", index, flags, outcome] => {
            Call::Link { index: u32_of(index)?, flags: u32_of(flags)?, outcome: u32_of(outcome)? }
        }
        [b"dellink", index, outcome] => Call::DelLink { index: u32_of(index)?, outcome: u32_of(outcome)? },
        [b"addr", index, address] => Call::Addr { index: u32_of(index)?, address: dotted(address)?.octets().into() },
        [b"deladdr", index, address] => {
            Call::DelAddr { index: u32_of(index)?, address: dotted(address)?.octets().into() }
        }
        [b"subscribe", kind] => Call::Subscribe { kind: kind.into() },
        [b"advertise", name, kind, location] => {
            Call::Advertise { name: name.into(), kind: kind.into(), location: location.into() }
        }
        [b"deadvertise", name] => Call::Deadvertise { name: name.into() },
        [b"refresh"] => Call::Refresh,
        [b"timeout", now] => Call::Timeout { now: u64_of(now)? },
        [b"reset", now] => Call::Reset { now: u64_of(now)? },
        [b"data", now, from, port, to, rest] => data(now, from, port, to, line_ends(rest))?,
        _ if program == Program::Trace => return trace_line(&fields),
        _ => return None,
    };
    Some(Line::Call(call))
}

/// The lines that `trace` reads besides the session's.
fn trace_line(fields: &[&[u8]]) -> Option<Line> {
    Some(match *fields {
        [b"outbox", lent] => Line::Outbox(number(lent, 300_000)? as usize),
        [b"hexdata", now, from, port, to, hex] => Line::Call(data(now, from, port, to, unhex(hex, 2000)?)?),
        [b"hexaddr", index, hex] => Line::Call(Call::Addr { index: u32_of(index)?, address: unhex(hex, 32)? }),
        [b"hexdeladdr", index, hex] => Line::Call(Call::DelAddr { index: u32_of(index)?, address: unhex(hex, 32)? }),
        _ => return None,
    })
}

fn data(now: &[u8], from: &[u8], port: &[u8], to: &[u8], datagram: Vec<u8>) -> Option<Call> {
    let from = Peer { address: dotted(from)?, port: number(port, u16::MAX.into())? as u16 };
    Some(Call::Data { now: u64_of(now)?, from, to: dotted(to)?, datagram })
}

/// 'A line ends at byte 10; one byte 13 before it goes too.'
pub fn bare(line: &[u8]) -> &[u8] {
    match line.strip_suffix(b"\n") {
        Some(line) => line.strip_suffix(b"\r").unwrap_or(line),
        None => line,
    }
}

/// '`|` in a datagram is bytes 13 and 10.'
fn line_ends(text: &[u8]) -> Vec<u8> {
    text.split(|b| *b == b'|').collect::<Vec<_>>().join(&b"\r\n"[..])
}

fn u32_of(field: &[u8]) -> Option<u32> {
    number(field, u32::MAX.into()).map(|n| n as u32)
}

fn u64_of(field: &[u8]) -> Option<u64> {
    number(field, u64::MAX)
}

fn dotted(field: &[u8]) -> Option<Ipv4Addr> {
    std::str::from_utf8(field).ok()?.parse().ok()
}

fn unhex(field: &[u8], largest: usize) -> Option<Vec<u8>> {
    if field.len() % 2 != 0 || field.len() > 2 * largest {
        return None;
    }
    let digit = |b: &u8| (*b as char).to_digit(16).map(|d| d as u8);
    field.chunks(2).map(|pair| Some(digit(&pair[0])? << 4 | digit(&pair[1])?)).collect()
}
