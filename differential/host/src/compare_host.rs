//! `compare-host SEED COUNT`: lists of calls through libhost.a, as a host in Rust makes them, and through the judge, until COUNT calls were
//! made. Answers, records and the whole outbox must be the judge's, and nothing behind it may change. The last line counts lists, calls and
//! differences; status 1 where any differ.
use cases::lists::List;
use judge::call::{Answer, Call, Peer, Record};
use judge::{bare, read, Line, Program, OUTBOX};
use kohlsilk::{Engine, Refusal};
use std::net::SocketAddrV4;

/// What the outbox holds before a call, and the bytes behind it.
const STALE: u8 = 165;

/// So many bytes behind what is lent are looked at: room for the records of any call, had it been lent none.
const BEHIND: usize = OUTBOX;

fn main() {
    let args: Vec<u64> = std::env::args().skip(1).map(|arg| arg.parse().unwrap()).collect();
    let [seed, count] = args[..] else {
        panic!("compare-host SEED COUNT");
    };
    let (mut lists, mut calls, mut differences) = (0, 0, 0);
    while calls < count {
        let lines = List::new(Program::Trace, seed, lists).lines();
        let mut host = Host { engine: None, outbox: vec![STALE; OUTBOX + BEHIND], lent: OUTBOX, calls: 0 };
        let parting = lines.iter().find_map(|(line, expected)| {
            let answer = host.line(bare(line));
            (answer != *expected).then(|| format!("{}--- the judge\n{expected}--- ours\n{answer}", String::from_utf8_lossy(line)))
        });
        if let Some(parting) = parting {
            differences += 1;
            println!("list {lists}: {parting}");
        }
        lists += 1;
        calls += host.calls;
    }
    println!("host: {lists} lists, {calls} calls, {differences} differences");
    std::process::exit((differences > 0).into());
}

/// A host whose calls come as lines of `trace`.
struct Host {
    engine: Option<Engine>,
    outbox: Vec<u8>,
    lent: usize,
    calls: u64,
}

impl Host {
    /// What `trace` has to print for a line.
    fn line(&mut self, line: &[u8]) -> String {
        self.answer(read(Program::Trace, line)).unwrap_or("?\n".into())
    }

    fn answer(&mut self, line: Option<Line>) -> Option<String> {
        let answer = match (line?, &mut self.engine) {
            (Line::Call(Call::New { seed, now }), None) => match Engine::new(seed, now) {
                Ok(engine) => Answer { poll: self.engine.insert(engine).poll(), ..Answer::default() },
                Err(start) => Answer { refusal: start.refusal.number(), poll: start.engine.poll(), ..Answer::default() },
            },
            (Line::Call(Call::New { .. }), Some(_)) | (_, None) => return None,
            (Line::Outbox(lent), Some(_)) => {
                (self.outbox, self.lent) = (vec![STALE; lent + BEHIND], lent);
                return Some("ok\n".into());
            }
            (Line::Call(call), Some(engine)) => {
                self.outbox.fill(STALE);
                let made = made(engine, &call, &mut self.outbox[..self.lent]);
                answered(engine, made, &self.outbox)?
            }
        };
        self.calls += 1;
        Some(answer.line() + &answer.details())
    }
}

fn made(engine: &mut Engine, call: &Call, outbox: &mut [u8]) -> Result<kohlsilk::Answer, Refusal> {
    match call {
        Call::New { .. } => unreachable!("`new` does not come again"),
        Call::Link { index, flags, outcome } => engine.new_link(*index, *flags, *outcome, outbox),
        Call::DelLink { index, outcome } => engine.deleted_link(*index, *outcome),
        Call::Addr { index, address } => engine.new_address(*index, address, outbox),
        Call::DelAddr { index, address } => engine.deleted_address(*index, address),
        Call::Subscribe { kind } => engine.subscribe(kind, outbox),
        Call::Advertise { name, kind, location } => engine.advertise(name, kind, location, outbox),
        Call::Deadvertise { name } => engine.deadvertise(name, outbox),
        Call::Refresh => engine.refresh(outbox),
        Call::Data { now, from, to, datagram } => engine.on_data(*now, SocketAddrV4::new(from.address, from.port), *to, datagram),
        Call::Timeout { now } => engine.handle_timeout(*now, outbox),
        Call::Reset { now } => engine.reset_refresh_timer(*now),
    }
}

/// The answer in the judge's form; nothing if the outbox does not hold the records, padded with zeros, and what it held before.
fn answered(engine: &Engine, made: Result<kohlsilk::Answer, Refusal>, outbox: &[u8]) -> Option<Answer> {
    let mut answer = Answer { waiting: engine.waiting() as u64, poll: engine.poll(), ..Answer::default() };
    match made {
        Err(refusal) => answer.refusal = refusal.number(),
        Ok(said) => {
            answer.records = said.records_in(outbox).map(record).collect();
            answer.matched = said.matched as u64;
            answer.joined = said.joined as u64;
            answer.alone = said.alone as u64;
            answer.group = said.group as u64;
            answer.dropped = said.dropped as u64;
            (answer.mask, answer.told, answer.leave) = (said.mask, said.told, said.leave);
            assert_eq!((answer.waiting, answer.poll), (said.waiting as u64, said.poll));
        }
    }
    let mut expected: Vec<u8> = answer.records.iter().flat_map(Record::bytes).collect();
    expected.resize(outbox.len().max(expected.len()), STALE);
    (expected == outbox).then_some(answer)
}

fn record(sent: kohlsilk::Record) -> Record {
    let to = Peer { address: *sent.destination.ip(), port: sent.destination.port() };
    Record { to, from: sent.source, message: sent.message.to_vec() }
}
