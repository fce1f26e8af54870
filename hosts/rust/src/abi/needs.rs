//! What calls need of an outbox. The records of each call are counted by document 02's paragraph from what was put in, which is kept here by hand, and
//! held beside what the library needs, refuses and writes, over pseudo-random lists of calls.
extern crate std;

use super::*;
use crate::sizes::{ADDRESSES, RECORDS, RECORD_SIZE};
use std::collections::BTreeMap;
use std::vec;
use std::vec::Vec;

/// The calls. Names and addresses are numbers, of which texts and octets are made; there are no more of them than an engine holds.
#[derive(Clone, Copy, Debug)]
enum Call {
    NewLink { index: u32, up: bool },
    DeletedLink { index: u32 },
    NewAddress { index: u32, address: u8 },
    DeletedAddress { index: u32, address: u8 },
    Subscribe { service_type: &'static str },
    Advertise { name: u8 },
    Deadvertise { name: u8 },
    Refresh,
    Search { sender: u32, time: u64 },
    Timeout { time: u64 },
    Reset { time: u64 },
}

use Call::*;

fn flags(up: bool) -> u32 {
    if up {
        0x1041
    } else {
        0x1000
    }
}

fn octets(address: u8) -> [u8; 4] {
    [10, 0, 0, address]
}

/// A reply that waits: when it is due, who has asked first, and whether another has asked since.
struct Wait {
    due: u64,
    sender: u32,
    group: bool,
}

/// What is held by an engine that began at time 0, from what was put in.
#[derive(Default)]
struct Held {
    names: BTreeMap<u8, Option<Wait>>,
    subscriptions: Vec<&'static str>,
    /// Whether each link is up, and its addresses.
    links: BTreeMap<u32, (bool, Vec<u8>)>,
    salvo: u64,
    phase: u8,
}

impl Held {
    /// 'Searches count 1 when a subscription is `ssdp:all`.'
    fn searches(&self) -> usize {
        if self.subscriptions.contains(&"ssdp:all") {
            1
        } else {
            self.subscriptions.len()
        }
    }

    /// 'Advertisements plus searches.'
    fn all(&self) -> usize {
        self.names.len() + self.searches()
    }

    /// 'Addresses on up links.'
    fn addresses(&self) -> usize {
        self.links.values().filter(|(up, _)| *up).map(|(_, addresses)| addresses.len()).sum()
    }

    /// 'That sum counts where the salvo is due, and the replies due are added, group ones once an address.'
    fn of_timeout(&self, time: u64) -> usize {
        let salvo = if self.salvo <= time { self.all() * self.addresses() } else { 0 };
        let due = self.names.values().flatten().filter(|wait| wait.due <= time);
        salvo + due.map(|wait| if wait.group { self.addresses() } else { 1 }).sum::<usize>()
    }

    /// 'The records that this very call would write.'
    fn records(&self, call: Call) -> usize {
        match call {
            Subscribe { .. } | Advertise { .. } => self.addresses(),
            Deadvertise { name } if self.names.contains_key(&name) => self.addresses(),
            Refresh => self.all() * self.addresses(),
            Timeout { time } => self.of_timeout(time),
            NewLink { index, up: true } => match self.links.get(&index) {
                Some((false, addresses)) => self.all() * addresses.len(),
                _ => 0,
            },
            NewAddress { index, address } => match self.links.get(&index) {
                Some((true, addresses)) if !addresses.contains(&address) => self.all(),
                _ => 0,
            },
            _ => 0,
        }
    }

    /// A call was accepted.
    fn accepted(&mut self, call: Call) {
        match call {
            NewLink { index, up } => self.links.entry(index).or_default().0 = up,
            DeletedLink { index } => drop(self.links.remove(&index)),
            NewAddress { index, address } => self.on_address(index, address, true),
            DeletedAddress { index, address } => self.on_address(index, address, false),
            Subscribe { service_type } => self.subscriptions.push(service_type),
            Advertise { name } => drop(self.names.insert(name, None)),
            Deadvertise { name } => drop(self.names.remove(&name)),
            Refresh => {}
            Search { sender, time } => self.on_search(sender, time),
            Timeout { time } => self.on_timeout(time),
            Reset { time } => (self.salvo, self.phase) = (time, 0),
        }
    }

    /// An address has come, if it is not there yet, or has gone. On a link that is not held it does nothing.
    fn on_address(&mut self, index: u32, address: u8, is_new: bool) {
        if let Some((_, addresses)) = self.links.get_mut(&index) {
            addresses.retain(|held| *held != address);
            addresses.extend(is_new.then_some(address));
        }
    }

    /// A search for all. With the seed 0 its replies are due at once.
    fn on_search(&mut self, sender: u32, time: u64) {
        for wait in self.names.values_mut() {
            match wait {
                None => *wait = Some(Wait { due: time, sender, group: false }),
                Some(wait) => wait.group |= wait.sender != sender,
            }
        }
    }

    fn on_timeout(&mut self, time: u64) {
        for wait in self.names.values_mut() {
            *wait = wait.take().filter(|wait| time < wait.due);
        }
        if self.salvo <= time {
            self.salvo += if self.phase == 3 { 800_000 } else { 6_000 };
            self.phase = (self.phase + 1) % 4;
        }
    }
}

/// What the library says that a call needs.
fn need(e: &EngineArrays, call: Call) -> usize {
    match call {
        NewLink { index, up } => new_link_need(e, index, flags(up)),
        NewAddress { index, address } => new_address_need(e, index, &octets(address)),
        Subscribe { .. } | Advertise { .. } => announcement_need(e),
        Deadvertise { name } => deadvertise_need(e, &[b'a' + name]),
        Refresh => refresh_need(e),
        Timeout { time } => handle_timeout_need(e, time),
        DeletedLink { .. } | DeletedAddress { .. } | Search { .. } | Reset { .. } => 0,
    }
}

fn make(e: &mut EngineArrays, call: Call, outbox: &mut [u8]) -> RawAnswer {
    match call {
        NewLink { index, up } => new_link(e, index, flags(up), 0, outbox),
        DeletedLink { index } => deleted_link(e, index, 0),
        NewAddress { index, address } => new_address(e, index, &octets(address), outbox),
        DeletedAddress { index, address } => deleted_address(e, index, &octets(address)),
        Subscribe { service_type } => subscribe(e, service_type.as_bytes(), outbox),
        Advertise { name } => advertise(e, &[b'a' + name], b"t:1", b"http://h/d", outbox),
        Deadvertise { name } => deadvertise(e, &[b'a' + name], outbox),
        Refresh => refresh(e, outbox),
        Search { sender, time } => on_data(e, time, sender, 5000, 0x0a00_0001, b"M-SEARCH * HTTP/1.1\nST: ssdp:all\nMX: 1\n"),
        Timeout { time } => handle_timeout(e, time, outbox),
        Reset { time } => reset_refresh_timer(e, time),
    }
}

/// Pseudo-random numbers, the same in every run.
struct Dice(u64);

impl Dice {
    fn roll(&mut self, below: u32) -> u32 {
        self.0 = self.0.wrapping_mul(6_364_136_223_846_793_005).wrapping_add(1_442_695_040_888_963_407);
        (self.0 >> 33) as u32 % below
    }

    /// A call that nothing but a short outbox refuses.
    fn call(&mut self, held: &Held, now: u64) -> Call {
        let (index, address) = (1 + self.roll(LINKS as u32), self.roll(ADDRESSES as u32) as u8);
        let (name, is_all) = (self.roll(NAMES as u32) as u8, self.roll(6) == 0);
        match self.roll(24) {
            0..=2 => NewLink { index, up: true },
            3 => NewLink { index, up: false },
            4 => DeletedLink { index },
            5..=8 => NewAddress { index, address },
            9 => DeletedAddress { index, address },
            10 if held.subscriptions.len() < SUBSCRIPTIONS => Subscribe { service_type: if is_all { "ssdp:all" } else { "t:1" } },
            11..=13 => Advertise { name },
            14 => Deadvertise { name },
            15 => Refresh,
            16 => Reset { time: now },
            17..=19 => Search { sender: self.roll(2), time: now },
            _ => Timeout { time: now },
        }
    }
}

/// With a byte less than it needs a call is refused by 2 and changes nothing; with what it needs it is accepted and writes nothing behind it.
fn check(e: &mut EngineArrays, call: Call, records: usize) {
    let size = RECORD_SIZE * records;
    let (before, blank) = (e.clone(), vec![165; size + RECORD_SIZE]);
    let mut bytes = blank.clone();
    assert_eq!(need(e, call), size, "{call:?}");
    if records > 0 {
        let answer = make(e, call, &mut bytes[..size - 1]);
        assert_eq!((answer.refusal, answer.records), (2, 0), "{call:?}");
    }
    assert!(*e == before && bytes == blank, "{call:?}");
    let answer = make(e, call, &mut bytes[..size]);
    assert_eq!((answer.refusal, answer.records), (0, records), "{call:?}");
    assert_eq!(bytes[size..], blank[size..], "{call:?}");
}

#[test]
fn what_calls_need() {
    let (mut dice, mut most) = (Dice(1), 0);
    for _ in 0..60 {
        let (mut e, mut held, mut now) = (EngineArrays::BLANK, Held::default(), 0);
        new(&mut e, 0, 0);
        for _ in 0..300 {
            now += u64::from(dice.roll(6)) + if dice.roll(40) == 0 { 6_000 } else { 0 };
            let call = dice.call(&held, now);
            let records = held.records(call);
            check(&mut e, call, records);
            held.accepted(call);
            most = most.max(records);
        }
    }
    // Lists have come to much: a salvo of many names, and replies to the group.
    assert!(most > RECORDS / 2, "{most}");
}
