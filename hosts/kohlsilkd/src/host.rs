//! The engine and what the host keeps beside it: names, subscriptions, counts. Datagrams and instants are handed to it.
use crate::arguments::{Advertisement, Arguments};
use crate::found::Found;
use crate::limit::{Kind, Limits};
use crate::links::Links;
use crate::print::{level, notification, remark, say, Counts, Level, Text};
use crate::refusals::Refusals;
use crate::settle::Surroundings;
use crate::socket::Received;
use crate::sockets::Sockets;
use crate::traffic::Traffic;
use kohlsilk::{Answer, Engine, Message, Refusal, OUTBOX_SIZE};
use std::collections::{BTreeMap, BTreeSet};
use std::fmt;
use std::io;
use std::net::{Ipv4Addr, SocketAddrV4};
use std::rc::Rc;
use std::time::Instant;

pub struct Host {
    pub engine: Engine,
    /// Lent to every call: as long as the most that any call on any engine needs, so that none is ever refused by number 2.
    pub outbox: Vec<u8>,
    pub ttl: u8,
    /// Of each link that is held.
    pub sockets: BTreeMap<u32, Rc<Sockets>>,
    pub links: Links,
    pub around: Surroundings,
    pub counts: Counts,
    pub refusals: Refusals,
    /// Of each link that is held, and of all others: those that were left, and those that are not served.
    pub traffic: BTreeMap<u32, Traffic>,
    pub other_traffic: Traffic,
    subscriptions: Vec<Vec<u8>>,
    found: Found,
    advertisements: Vec<Advertisement>,
    /// Names and the addresses from which they were announced: what the engine made of the location was said for these.
    pub announced: BTreeSet<(String, Ipv4Addr)>,
    start: Instant,
    pub log_records: bool,
    answer_anyone: bool,
    limits: Limits,
}

impl Host {
    pub fn new(seed: u32, arguments: &Arguments) -> Result<Host, Refusal> {
        Ok(Host {
            engine: Engine::new(seed, 0)?,
            outbox: vec![0; OUTBOX_SIZE],
            ttl: arguments.ttl,
            sockets: BTreeMap::new(),
            links: Links::default(),
            around: Surroundings::new(&arguments.interfaces),
            counts: Counts::default(),
            refusals: Refusals::default(),
            traffic: BTreeMap::new(),
            other_traffic: Traffic::default(),
            subscriptions: vec![],
            found: Found::default(),
            advertisements: vec![],
            announced: BTreeSet::new(),
            start: Instant::now(),
            log_records: arguments.log_records,
            answer_anyone: arguments.answer_anyone,
            limits: Limits::default(),
        })
    }

    /// Milliseconds since the start, which are the engine's times.
    pub fn now(&self) -> u64 {
        self.start.elapsed().as_millis() as u64
    }

    /// How long until the engine wants to be called.
    pub fn until_poll(&self) -> u64 {
        self.engine.poll().saturating_sub(self.now())
    }

    /// Takes up what the command line asks for, and says whether all of it was accepted.
    pub fn begin(&mut self, arguments: &Arguments) -> bool {
        let mut accepted = true;
        for service_type in &arguments.subscriptions {
            let answer = self.engine.subscribe(service_type, &mut self.outbox);
            match self.answered(answer, None, || format!("subscribe {}", Text(service_type))) {
                Some(_) => self.subscriptions.push(service_type.clone()),
                None => accepted = false,
            }
        }
        for service in &arguments.advertisements {
            accepted &= self.advertise(service);
        }
        accepted
    }

    /// Announces a service, and says whether it was accepted.
    fn advertise(&mut self, service: &Advertisement) -> bool {
        let answer = self.engine.advertise(&service.name, &service.service_type, &service.location, &mut self.outbox);
        let accepted = self.answered(answer, None, || format!("advertise {}", Text(&service.name))).is_some();
        if accepted {
            self.advertisements.push(service.clone());
        }
        accepted
    }

    fn withdraw(&mut self, service: &Advertisement) {
        self.announced.retain(|(name, _)| name.as_bytes() != service.name);
        let answer = self.engine.deadvertise(&service.name, &mut self.outbox);
        self.answered(answer, None, || format!("deadvertise {}", Text(&service.name)));
    }

    /// Withdraws the services that are no longer wanted and announces those that are new. One that has changed is both.
    pub fn change_names(&mut self, wanted: &[Advertisement]) {
        let (kept, gone): (Vec<_>, Vec<_>) = self.advertisements.drain(..).partition(|service| wanted.contains(service));
        self.advertisements = kept;
        gone.iter().for_each(|service| self.withdraw(service));
        let new: Vec<_> = wanted.iter().filter(|service| !self.advertisements.contains(service)).collect();
        let accepted = new.iter().filter(|service| self.advertise(service)).count();
        say(format_args!("configuration read again: {accepted} names added, {} withdrawn", gone.len()));
    }

    /// Withdraws each name, and prints the counts.
    pub fn end(&mut self) {
        for service in std::mem::take(&mut self.advertisements) {
            self.withdraw(&service);
        }
        self.say_more(u64::MAX);
        self.say_counts();
    }

    /// Prints what was counted of each link, and the ledger.
    pub fn say_counts(&self) {
        self.status().count_lines().iter().for_each(|line| say(format_args!("{line}")));
    }

    /// Calls the engine, if the instant that it named has come.
    pub fn on_time(&mut self) {
        let now = self.now();
        if self.engine.poll() <= now {
            let answer = self.engine.handle_timeout(now, &mut self.outbox);
            self.answered(answer, None, || "timeout");
        }
        self.say_more(now);
    }

    /// A line that others can cause: it is printed up to a limit, or always by --verbose and never by --quiet.
    pub fn report_limited(&mut self, kind: Kind, line: fmt::Arguments) {
        let now = self.now();
        if level() == Level::Verbose || self.limits.admits(kind, now) {
            remark(line);
        }
    }

    /// Says how many lines were not printed in the windows that have ended.
    fn say_more(&mut self, now: u64) {
        for (kind, more) in self.limits.ended(now) {
            remark(format_args!("{more} more like this: {kind}"));
        }
    }

    pub fn on_datagram(&mut self, received: &Received, datagram: &[u8]) {
        let Received { sender, receiver, link, .. } = *received;
        self.traffic_of(link).heard += 1;
        if !self.may_answer(received) && is_search(datagram) {
            self.traffic_of(link).off_link += 1;
            return;
        }
        if self.is_own_port(&sender) && is_search(datagram) {
            return;
        }
        let answer = match self.engine.on_data(self.now(), sender, receiver, datagram) {
            Ok(answer) => answer,
            Err(refusal) => {
                self.refusals.count(refusal);
                return self.report_limited(Kind::Refused(refusal.number()), format_args!("datagram from {sender}: {refusal}"));
            }
        };
        self.counts.add(&answer);
        if let (1.., Ok(message)) = (answer.told, kohlsilk::parse(datagram)) {
            self.say_found(&answer, &message);
        }
    }

    /// Prints a device that is new, has changed or has left, and the subscriptions that it concerns.
    fn say_found(&mut self, answer: &Answer, message: &Message) {
        if self.found.is_news(message) {
            let told = answer.subscriptions().filter_map(|k| self.subscriptions.get(k));
            let told: Vec<String> = told.map(|service_type| Text(service_type).to_string()).collect();
            let line = notification(message).unwrap_or_default();
            say(format_args!("{line} (for {})", told.join(", ")));
        }
    }

    /// Whether a search from this sender is for the engine. Others could have replies sent to strangers, by a forged address.
    fn may_answer(&self, received: &Received) -> bool {
        let is_served = self.sockets.contains_key(&received.link);
        self.answer_anyone || self.around.may_answer(*received.sender.ip(), received.link, is_served)
    }

    /// Whether a datagram comes from one of the sockets that search: this machine hears what it sends to the group.
    fn is_own_port(&self, sender: &SocketAddrV4) -> bool {
        self.sockets.values().any(|sockets| sockets.search_port == sender.port()) && self.around.network.is_own(*sender.ip())
    }

    pub fn traffic_of(&mut self, link: u32) -> &mut Traffic {
        self.traffic.get_mut(&link).unwrap_or(&mut self.other_traffic)
    }
}

fn is_search(datagram: &[u8]) -> bool {
    matches!(kohlsilk::parse(datagram), Ok(Message::Search { .. }))
}

/// The number of an error as an outcome, which is not 0.
pub fn error_number(error: &io::Error) -> u32 {
    error.raw_os_error().map_or(1, |number| number as u32)
}

#[cfg(test)]
mod tests {
    use super::*;
    use kohlsilk::{flags, ADDRESSES, LINKS, NAMES, RECORDS, SUBSCRIPTIONS};

    /// A command line that fills the tables of names and of subscriptions.
    fn full() -> Arguments {
        let names = (0..NAMES).map(|k| format!("--advertise u{k} t http://h/ "));
        let line: String = names.chain((0..SUBSCRIPTIONS).map(|k| format!("--subscribe s{k} "))).collect();
        Arguments::read(line.split_ascii_whitespace().chain(["--answer-anyone"]).map(Into::into)).unwrap()
    }

    /// The largest of all calls: the salvo of a full engine, and behind it a reply to the group for each name, from every address.
    #[test]
    fn the_outbox_is_long_enough_for_the_largest_timeout() {
        let arguments = full();
        let mut host = Host::new(0, &arguments).unwrap();
        assert!(host.begin(&arguments));
        for index in 1..=LINKS as u32 {
            host.engine.new_link(index, flags::UP | flags::RUNNING | flags::MULTICAST, 0, &mut host.outbox).unwrap();
            for k in 1..=ADDRESSES as u8 {
                host.engine.new_address(index, &[10, 0, index as u8, k], &mut host.outbox).unwrap();
            }
        }
        for port in [5000, 5001] {
            let sender = SocketAddrV4::new([10, 0, 1, 9].into(), port);
            let received = Received { len: 0, sender, receiver: [10, 0, 1, 1].into(), link: 1 };
            host.on_datagram(&received, b"M-SEARCH * HTTP/1.1\r\nST: ssdp:all\r\nMX: 1\r\n\r\n");
        }
        let later = host.now() + 1000;
        assert_eq!(host.engine.handle_timeout_need(later), host.outbox.len());
        assert_eq!(host.engine.handle_timeout(later, &mut host.outbox).unwrap().records, RECORDS);
        assert!(host.refusals.all().is_empty());
    }
}
