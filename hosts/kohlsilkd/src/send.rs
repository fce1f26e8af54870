//! What becomes of a call's answer: its records are sent, its counts added up, its refusal reported.
use crate::host::Host;
use crate::limit::Kind;
use crate::print::{self, note, report, say, Text};
use crate::socket::is_full;
use kohlsilk::{Answer, Message, Record, Refusal, GROUP};
use std::collections::BTreeMap;
use std::fmt::Display;
use std::io;
use std::net::Ipv4Addr;

impl Host {
    /// Reports a refusal, or sends the records of an answer: to the group on `link`, if the call was about one.
    pub fn answered<T: Display>(&mut self, answer: Result<Answer, Refusal>, link: Option<u32>, what: impl Fn() -> T) -> Option<Answer> {
        let answer = match answer {
            Ok(answer) => answer,
            Err(refusal) => {
                self.refusals.count(refusal);
                report(format_args!("{}: {refusal}", what()));
                return None;
            }
        };
        self.counts.add(&answer);
        // What is sent is read in the outbox while the counts change: for that time it is taken out of the host.
        let outbox = std::mem::take(&mut self.outbox);
        let mut turns = BTreeMap::new();
        for sent in answer.records_in(&outbox) {
            let turn = turns.entry(sent.source).or_insert(0);
            self.send(&sent, link.unwrap_or_else(|| self.link_for(sent.source, *turn)), &what);
            *turn += usize::from(sent.destination == GROUP);
        }
        self.outbox = outbox;
        Some(answer)
    }

    /// The link by whose sockets a record from this source goes. A search may have reached an address that the engine does not hold: then the
    /// link that has it.
    fn link_for(&self, source: Ipv4Addr, turn: usize) -> u32 {
        let has = |index: &u32| self.around.network.links.get(index).is_some_and(|link| link.addresses.contains_key(&source));
        match self.links.link_of(source, turn) {
            0 => self.sockets.keys().copied().find(has).unwrap_or(0),
            index => index,
        }
    }

    /// Says at which location a name is announced, the first time that this is done from an address: the engine makes the address its host.
    fn say_location(&mut self, record: &Record) {
        if let Ok(Message::NotifyAlive { unique_service_name: name, location, .. }) = kohlsilk::parse(record.message) {
            if self.announced.insert((name.into(), record.source)) {
                note(format_args!("announced {} at {}", Text(name.as_bytes()), Text(location.as_bytes())));
            }
        }
    }

    /// Forgets what was said of an address that has gone.
    pub fn forget_announced(&mut self, address: Ipv4Addr) {
        self.announced.retain(|(_, from)| *from != address);
    }

    /// Sends a record by the sockets of a link, and counts it. A full queue is nothing to report: it is counted.
    fn send<T: Display>(&mut self, record: &Record, link: u32, what: &impl Fn() -> T) {
        if self.log_records {
            say(format_args!("{}", print::record(record)));
        }
        self.say_location(record);
        let out_on = if record.destination == GROUP { link } else { 0 };
        let sent = match self.sockets.get(&link) {
            Some(sockets) => sockets.send(record, out_on),
            None => Err(io::ErrorKind::NotConnected.into()),
        };
        let traffic = self.traffic_of(link);
        match sent {
            Ok(()) => traffic.sent += 1,
            Err(error) => {
                traffic.not_sent += 1;
                if !is_full(&error) {
                    let line = format!("{}: from {} to {}: {error}", what(), record.source, record.destination);
                    self.report_limited(Kind::NotSent, format_args!("{line}"));
                }
            }
        }
    }
}
