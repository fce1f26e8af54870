//! The engine and ledger of documents 01 and 02 (changes 1 and 2), written from their text alone: the refusals in their order, how many
//! records a call needs room for, the records that it sends, the six counts. Only the texts of messages (`parse`, `build_*`) are the
//! Rust's own, as document 01 has it. A quotation is of document 01 where no other is named.
use crate::call::{Answer, Call, Peer, Record};
use crate::refusal;
use crate::text;
use cotton_ssdp::message::{self, Message};
use std::collections::BTreeMap;
use std::net::Ipv4Addr;

/// 'Who can be turned away', 'Table sizes', 'Outbox'.
pub const MAX_TIME: u64 = (1 << 63) - 1;
pub const NAMES: usize = 8;
pub const SUBSCRIPTIONS: usize = 4;
pub const LINKS: usize = 3;
pub const ADDRESSES: usize = 2;
pub const NAME_SIZE: usize = 128;
pub const TYPE_SIZE: usize = 80;
pub const LOCATION_SIZE: usize = 120;
pub const RECORD: usize = 524;
const GROUP: Peer = Peer { address: Ipv4Addr::new(239, 255, 255, 250), port: 1900 };
const ALL: &[u8] = b"ssdp:all";

/// What is held after some calls.
pub struct Document {
    seed: u32,
    salvo: u64,
    phase: u32,
    names: BTreeMap<Vec<u8>, Advertisement>,
    subscriptions: Vec<Vec<u8>>,
    links: BTreeMap<u32, Link>,
}

struct Advertisement {
    kind: Vec<u8>,
    location: Vec<u8>,
    wait: Option<Wait>,
}

/// A waiting reply.
struct Wait {
    due: u64,
    sender: Peer,
    receiver: Ipv4Addr,
    kind: Vec<u8>,
    group: bool,
}

struct Link {
    up: bool,
    addresses: Vec<Ipv4Addr>,
}

impl Document {
    /// The engine that `new` gives: 'a refused `new` gives an engine with that seed at time 0'.
    pub fn new(seed: u32, now: u64) -> (Self, Answer) {
        let refusal = if now > MAX_TIME { refusal::TIME_LATE } else { 0 };
        let held = Self {
            seed,
            salvo: if refusal == 0 { now } else { 0 },
            phase: 0,
            names: BTreeMap::new(),
            subscriptions: Vec::new(),
            links: BTreeMap::new(),
        };
        let answer = Answer { refusal, poll: held.poll(), ..Answer::default() };
        (held, answer)
    }

    /// Any other call.
    pub fn call(&mut self, call: &Call, lent: usize) -> Answer {
        let refusal = self.refusal(call, lent);
        let mut answer = if refusal == 0 { self.accepted(call) } else { Answer { refusal, ..Answer::default() } };
        answer.waiting = self.names.values().filter(|a| a.wait.is_some()).count() as u64;
        answer.poll = self.poll();
        answer
    }

    /// 'Poll is the least of the salvo instant and every wait's instant.'
    pub fn poll(&self) -> u64 {
        let waits = self.names.values().filter_map(|a| a.wait.as_ref());
        waits.map(|w| w.due).min().unwrap_or(u64::MAX).min(self.salvo)
    }

    /// The first number that the call meets; 0 for none. Document 02: 'Refusal 2 is now for an outbox under 524 times the records that
    /// this very call would write, and is checked last in every call'.
    pub fn refusal(&self, call: &Call, lent: usize) -> u32 {
        let mut rules = self.rules(call);
        rules.push((lent < RECORD * self.need(call), refusal::OUTBOX_SHORT));
        first(rules)
    }

    /// 'Who can be turned away': each number but 2, 'in the order listed, per call', and whether the call meets it.
    fn rules(&self, call: &Call) -> Vec<(bool, u32)> {
        let late = |now: u64| (now > MAX_TIME, refusal::TIME_LATE);
        let over = |texts: &[(&[u8], usize)]| (texts.iter().any(|(t, size)| t.len() > *size), refusal::TEXT_OVER_SIZE);
        let bad = |texts: &[(&[u8], usize)]| (texts.iter().any(|(t, _)| !text::good(t)), refusal::TEXT_NOT_GOOD);
        let unnamed = |index: u32| (index == 0, refusal::INDEX_ZERO);
        let odd = |address: &[u8]| (address.len() != 4 && address.len() != 16, refusal::ADDRESS_LENGTH);
        match call {
            Call::New { now, .. } | Call::Timeout { now } | Call::Reset { now } => vec![late(*now)],
            Call::Link { index, flags, outcome } => {
                let new = flags & 0x1000 != 0 && !self.links.contains_key(index);
                vec![unnamed(*index), (new && self.links.len() == LINKS, refusal::LINKS_FULL), (new && *outcome != 0, refusal::JOIN_FAILED)]
            }
            Call::DelLink { index, .. } => vec![unnamed(*index)],
            Call::Addr { index, address } => {
                vec![unnamed(*index), odd(address), (self.third(*index, address), refusal::LINKS_FULL)]
            }
            Call::DelAddr { index, address } => vec![unnamed(*index), odd(address)],
            Call::Subscribe { kind } => {
                let texts: [(&[u8], usize); 1] = [(kind, TYPE_SIZE)];
                vec![over(&texts), bad(&texts), (self.subscriptions.len() == SUBSCRIPTIONS, refusal::TABLE_FULL)]
            }
            Call::Advertise { name, kind, location } => {
                let texts: [(&[u8], usize); 3] = [(name, NAME_SIZE), (kind, TYPE_SIZE), (location, LOCATION_SIZE)];
                let ninth = self.names.len() == NAMES && !self.names.contains_key(name);
                vec![over(&texts), bad(&texts), (ninth, refusal::TABLE_FULL)]
            }
            Call::Deadvertise { .. } | Call::Refresh => vec![],
            Call::Data { now, datagram, .. } => vec![late(*now), (true, peer_refusal(datagram))],
        }
    }

    /// Document 02: 'the records that this very call would write', by its formula: the numbers of what is held, and no record made.
    pub fn need(&self, call: &Call) -> usize {
        let (all, up) = (self.names.len() + self.searches_count(), self.up_addresses_count());
        match call {
            // Document 02: 'for refresh, advertisements plus searches, times addresses on up links.'
            Call::Refresh => all * up,
            // Document 02: 'For handle_timeout that sum counts where the salvo is due, and the replies due are added'
            Call::Timeout { now } => usize::from(*now >= self.salvo) * all * up + self.replies_due(*now, up),
            // '`subscribe` sends its search, `advertise` its notify, .. once to every address on up links.'
            Call::Subscribe { .. } | Call::Advertise { .. } => up,
            // '`deadvertise` of a known name its byebye'
            Call::Deadvertise { name } => usize::from(self.names.contains_key(name)) * up,
            // 'one turning up sends to its addresses', and 'To one address: the same searches, then advertisements.'
            Call::Link { index, flags, .. } => all * self.addresses_turning_up(*index, *flags),
            // 'any other is stored last and, on an up link, sent to'
            Call::Addr { index, address } => usize::from(self.is_sent_to(*index, address)) * all,
            Call::New { .. } | Call::DelLink { .. } | Call::DelAddr { .. } | Call::Data { .. } | Call::Reset { .. } => 0,
        }
    }

    /// Document 02: 'Searches count 1 when a subscription is `ssdp:all`.'
    fn searches_count(&self) -> usize {
        if self.subscriptions.iter().any(|kind| kind == ALL) {
            1
        } else {
            self.subscriptions.len()
        }
    }

    /// Document 02: 'addresses on up links'
    fn up_addresses_count(&self) -> usize {
        self.links.values().map(|link| usize::from(link.up) * link.addresses.len()).sum()
    }

    /// Document 02: 'the replies due are added, group ones once an address'; a lone one 'writes exactly one record'.
    fn replies_due(&self, now: u64, up: usize) -> usize {
        let waits = self.names.values().filter_map(|held| held.wait.as_ref());
        waits.filter(|wait| wait.due <= now).map(|wait| if wait.group { up } else { 1 }).sum()
    }

    /// The addresses of a known link that was down and is up by this news, which does nothing 'without MULTICAST'.
    fn addresses_turning_up(&self, index: u32, flags: u32) -> usize {
        let up = flags & 0x1000 != 0 && flags & 0x41 == 0x41;
        self.links.get(&index).map_or(0, |link| usize::from(up && !link.up) * link.addresses.len())
    }

    /// Not 'a repeated, IPv6 or unknown-link address', and on an up link.
    fn is_sent_to(&self, index: u32, address: &[u8]) -> bool {
        match (ipv4(address), self.links.get(&index)) {
            (Some(address), Some(link)) => link.up && !link.addresses.contains(&address),
            _ => false,
        }
    }

    /// 13: 'a third address that would be stored'.
    fn third(&self, index: u32, address: &[u8]) -> bool {
        match (ipv4(address), self.links.get(&index)) {
            (Some(address), Some(link)) => link.addresses.len() == ADDRESSES && !link.addresses.contains(&address),
            _ => false,
        }
    }

    fn accepted(&mut self, call: &Call) -> Answer {
        let mut answer = Answer::default();
        match call {
            Call::New { .. } => unreachable!("`new` does not come again"),
            Call::Link { index, flags, .. } => answer.records = self.link(*index, *flags),
            Call::DelLink { index, outcome } => {
                answer.leave = if self.links.remove(index).is_some() { *outcome } else { 0 };
            }
            Call::Addr { index, address } => answer.records = self.addr(*index, address),
            Call::DelAddr { index, address } => self.del_addr(*index, address),
            Call::Subscribe { kind } => {
                answer.records = self.to_all(|from| search(kind, from));
                self.subscriptions.push(kind.clone());
            }
            Call::Advertise { name, kind, location } => {
                let new = Advertisement { kind: kind.clone(), location: location.clone(), wait: None };
                answer.records = self.to_all(|from| new.notify(name, from));
                let old = self.names.insert(name.clone(), new);
                answer.dropped = old.is_some_and(|a| a.wait.is_some()).into();
            }
            Call::Deadvertise { name } => {
                if let Some(old) = self.names.remove(name) {
                    answer.records = self.to_all(|from| old.byebye(name, from));
                    answer.dropped = old.wait.is_some().into();
                }
            }
            Call::Refresh => answer.records = self.refresh(),
            Call::Data { now, from, to, datagram } => self.data(*now, *from, *to, datagram, &mut answer),
            Call::Timeout { now } => self.timeout(*now, &mut answer),
            Call::Reset { now } => (self.salvo, self.phase) = (*now, 0),
        }
        answer
    }

    /// 'A known link's state follows its news; one turning up sends to its addresses.'
    fn link(&mut self, index: u32, flags: u32) -> Vec<Record> {
        if flags & 0x1000 == 0 {
            return vec![];
        }
        let up = flags & 0x41 == 0x41;
        let link = self.links.entry(index).or_insert(Link { up, addresses: vec![] });
        let turns_up = up && !link.up;
        link.up = up;
        let addresses = if turns_up { link.addresses.clone() } else { vec![] };
        addresses.iter().flat_map(|a| self.to_one(*a)).collect()
    }

    /// 'A repeated, IPv6 or unknown-link address does nothing; any other is stored last and, on an up link, sent to.'
    fn addr(&mut self, index: u32, address: &[u8]) -> Vec<Record> {
        let (Some(address), Some(link)) = (ipv4(address), self.links.get_mut(&index)) else {
            return vec![];
        };
        if link.addresses.contains(&address) {
            return vec![];
        }
        link.addresses.push(address);
        if link.up {
            self.to_one(address)
        } else {
            vec![]
        }
    }

    /// 'Deleting an address moves the last into its place; one not held: nothing.'
    fn del_addr(&mut self, index: u32, address: &[u8]) {
        let (Some(address), Some(link)) = (ipv4(address), self.links.get_mut(&index)) else {
            return;
        };
        if let Some(place) = link.addresses.iter().position(|a| *a == address) {
            link.addresses.swap_remove(place);
        }
    }

    /// The accepted datagram: a search for the ledger, a notify or response for the mask.
    fn data(&mut self, now: u64, from: Peer, to: Ipv4Addr, datagram: &[u8], answer: &mut Answer) {
        let told = match message::parse(datagram).unwrap() {
            Message::Search { search_target, maximum_wait_sec } => {
                // Document 02: 'seed mod min(1000·MX, 5000), with no 10 added'.
                let delay = u64::from(self.seed % (1000 * u32::from(maximum_wait_sec)).min(5000));
                self.search(search_target.as_bytes(), now + delay, from, to, answer);
                return;
            }
            Message::NotifyAlive { notification_type, .. } | Message::NotifyByeBye { notification_type, .. } => notification_type,
            Message::Response { search_target, .. } => search_target,
        };
        for (k, kind) in self.subscriptions.iter().enumerate() {
            if text::matches(kind, told.as_bytes()) {
                answer.mask |= 1 << k;
                answer.told += 1;
            }
        }
    }

    /// 'Accepted search, for each name whose type its target matches: matched 1. ..'
    fn search(&mut self, target: &[u8], due: u64, sender: Peer, receiver: Ipv4Addr, answer: &mut Answer) {
        for held in self.names.values_mut().filter(|held| text::matches(target, &held.kind)) {
            answer.matched += 1;
            if let Some(wait) = &mut held.wait {
                answer.joined += 1;
                wait.group |= sender != wait.sender;
            } else {
                let kind = if target == ALL { held.kind.clone() } else { target.to_vec() };
                held.wait = Some(Wait { due, sender, receiver, kind, group: false });
            }
        }
    }

    /// 'The records of a handle_timeout are the refresh records, if the salvo is due, then those of each wait that it ended, in byte order of name.'
    fn timeout(&mut self, now: u64, answer: &mut Answer) {
        if now >= self.salvo {
            answer.records = self.refresh();
            let period = if self.phase == 3 { 800_000 } else { 6_000 };
            self.salvo += period + 10 * u64::from(self.seed.to_le_bytes()[self.phase as usize]);
            self.phase = (self.phase + 1) % 4;
        }
        let up = self.up_addresses();
        for (name, held) in &mut self.names {
            let Some(wait) = held.wait.take_if(|wait| wait.due <= now) else {
                continue;
            };
            if wait.group {
                answer.group += 1;
                answer.records.extend(up.iter().map(|from| held.notify(name, *from)));
            } else {
                answer.alone += 1;
                answer.records.push(held.response(name, &wait));
            }
        }
    }

    /// '`refresh`: all advertisements, then searches.'
    fn refresh(&self) -> Vec<Record> {
        let mut records = vec![];
        for (name, held) in &self.names {
            records.extend(self.to_all(|from| held.notify(name, from)));
        }
        for kind in self.searches() {
            records.extend(self.to_all(|from| search(kind, from)));
        }
        records
    }

    /// 'To one address: the same searches, then advertisements.'
    fn to_one(&self, from: Ipv4Addr) -> Vec<Record> {
        let searches = self.searches().into_iter().map(|kind| search(kind, from));
        searches.chain(self.names.iter().map(|(name, held)| held.notify(name, from))).collect()
    }

    /// 'one `ssdp:all` if any subscription is that'
    fn searches(&self) -> Vec<&[u8]> {
        if self.subscriptions.iter().any(|kind| kind == ALL) {
            return vec![ALL];
        }
        self.subscriptions.iter().map(Vec::as_slice).collect()
    }

    /// 'links by index, addresses as stored'
    fn up_addresses(&self) -> Vec<Ipv4Addr> {
        self.links.values().filter(|link| link.up).flat_map(|link| link.addresses.clone()).collect()
    }

    fn to_all(&self, make: impl Fn(Ipv4Addr) -> Record) -> Vec<Record> {
        self.up_addresses().into_iter().map(make).collect()
    }
}

impl Advertisement {
    fn notify(&self, name: &[u8], from: Ipv4Addr) -> Record {
        let location = text::rewrite(&self.location, from);
        record(GROUP, from, |b| message::build_notify(b, utf8(&self.kind), utf8(name), utf8(&location)))
    }

    fn byebye(&self, name: &[u8], from: Ipv4Addr) -> Record {
        record(GROUP, from, |b| message::build_byebye(b, utf8(&self.kind), utf8(name)))
    }

    fn response(&self, name: &[u8], wait: &Wait) -> Record {
        let location = text::rewrite(&self.location, wait.receiver);
        record(wait.sender, wait.receiver, |b| message::build_response(b, utf8(&wait.kind), utf8(name), utf8(&location)))
    }
}

fn search(kind: &[u8], from: Ipv4Addr) -> Record {
    record(GROUP, from, |b| message::build_search(b, utf8(kind)))
}

fn record(to: Peer, from: Ipv4Addr, build: impl Fn(&mut [u8]) -> usize) -> Record {
    let mut buffer = [0; 512];
    let length = build(&mut buffer);
    Record { to, from, message: buffer[..length].to_vec() }
}

/// 'A peer's datagram, after 1: 7 empty; 8 any other `parse` error; 9 MX 0; 10 search target over 80 bytes.'
fn peer_refusal(datagram: &[u8]) -> u32 {
    match message::parse(datagram) {
        Err(message::Error::UnexpectedEof) => refusal::DATAGRAM_EMPTY,
        Err(_) => refusal::DATAGRAM_INVALID,
        Ok(Message::Search { maximum_wait_sec: 0, .. }) => refusal::WAIT_ZERO,
        Ok(Message::Search { search_target, .. }) if search_target.len() > TYPE_SIZE => refusal::TARGET_OVER_SIZE,
        Ok(_) => 0,
    }
}

fn first(rules: Vec<(bool, u32)>) -> u32 {
    rules.into_iter().find(|(met, number)| *met && *number != 0).map_or(0, |(_, number)| number)
}

fn ipv4(address: &[u8]) -> Option<Ipv4Addr> {
    <[u8; 4]>::try_from(address).ok().map(Ipv4Addr::from)
}

/// Held texts passed refusal 4.
fn utf8(text: &[u8]) -> &str {
    std::str::from_utf8(text).unwrap()
}
