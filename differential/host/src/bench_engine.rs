//! `bench-engine`: every public call of the engine beside the Rust's (the reference) in one process, with all names that ours holds, subscriptions or none, and
//! 3 links with 2 addresses each. Before a call is timed both engines have made it and must have sent the same records and wait for the same instant.
mod clock;
mod rust;

use clock::{head, row};
use kohlsilk::{flags, Answer, Engine, Refusal, NAMES, OUTBOX_SIZE, RECORD_SIZE};
use rust::Rust;
use std::hint::black_box;
use std::net::{Ipv4Addr, SocketAddrV4};

const KIND: &str = "urn:schemas-upnp-org:service:ContentDirectory:1";
const LOCATION: &str = "http://192.168.100.200:49152/description.xml";
const SUBSCRIPTIONS: [&str; 4] =
    ["urn:a:service:1", "urn:b:service:1", "urn:schemas-upnp-org:service:ContentDirectory:2", "upnp:rootdevice"];
const HERE: [u8; 4] = [192, 168, 1, 1];
const FIRST: SocketAddrV4 = SocketAddrV4::new(Ipv4Addr::new(192, 168, 1, 9), 50000);
const SECOND: SocketAddrV4 = SocketAddrV4::new(Ipv4Addr::new(192, 168, 1, 8), 50000);
const DOWN: u32 = flags::MULTICAST;
const UP: u32 = flags::UP | flags::RUNNING | flags::MULTICAST;

/// The searches come now, and replies are due at `LATER`, before the next refresh.
const NOW: u64 = 1000;
const LATER: u64 = 2000;

/// The link whose news is timed, and its addresses.
const LINK: u32 = 3;

fn addresses(index: u32) -> [[u8; 4]; 2] {
    [1, 2].map(|last| [192, 168, index as u8, last])
}

/// The names in their order.
fn name(k: usize) -> String {
    format!("uuid:00112233-4455-6677-8899-aabbccddee{k:02x}::{KIND}")
}

struct Both {
    ours: Engine,
    outbox: Vec<u8>,
    records: usize,
    rust: Rust,
}

/// What both engines do; `ours_*` and `rust_*` one of them.
impl Both {
    fn new(subscriptions: &[&str]) -> Both {
        let mut both = Both { ours: Engine::new(0, 0).unwrap(), outbox: vec![0; OUTBOX_SIZE], records: 0, rust: Rust::new() };
        both.begin(subscriptions);
        both
    }

    /// Both anew, in the outboxes that are there.
    fn begin(&mut self, subscriptions: &[&str]) {
        self.ours_new();
        self.rust.begin();
        self.timeout(NOW);
        for index in 1..=LINK {
            self.link(index, UP);
            addresses(index).iter().for_each(|address| self.address(index, *address));
        }
        subscriptions.iter().for_each(|kind| self.subscribe(kind));
        (0..NAMES).for_each(|k| self.advertise(&name(k)));
    }

    fn noted(&mut self, made: impl FnOnce(&mut Engine, &mut [u8]) -> Result<Answer, Refusal>) {
        self.records = black_box(made(&mut self.ours, &mut self.outbox)).map_or(0, |answer| answer.records);
    }

    fn ours_new(&mut self) {
        self.ours = black_box(Engine::new(0, 0)).unwrap();
        self.records = 0;
    }

    fn ours_data(&mut self, sender: SocketAddrV4, datagram: &[u8]) {
        self.noted(|ours, _| ours.on_data(NOW, sender, HERE.into(), datagram));
    }

    fn data(&mut self, sender: SocketAddrV4, datagram: &[u8]) {
        self.ours_data(sender, datagram);
        self.rust.on_data(NOW, sender, HERE, datagram);
    }

    fn ours_timeout(&mut self, time: u64) {
        self.noted(|ours, outbox| ours.handle_timeout(time, outbox));
    }

    fn timeout(&mut self, time: u64) {
        self.ours_timeout(time);
        self.rust.handle_timeout(time);
    }

    fn ours_link(&mut self, index: u32, flags: u32) {
        self.noted(|ours, outbox| ours.new_link(index, flags, 0, outbox));
    }

    fn link(&mut self, index: u32, flags: u32) {
        self.ours_link(index, flags);
        self.rust.link(index, flags);
    }

    fn ours_address(&mut self, index: u32, address: [u8; 4]) {
        self.noted(|ours, outbox| ours.new_address(index, &address, outbox));
    }

    fn address(&mut self, index: u32, address: [u8; 4]) {
        self.ours_address(index, address);
        self.rust.address(index, address);
    }

    fn ours_deleted_link(&mut self, index: u32) {
        self.noted(|ours, _| ours.deleted_link(index, 0));
    }

    fn deleted_link(&mut self, index: u32) {
        self.ours_deleted_link(index);
        self.rust.deleted_link(index);
    }

    fn ours_deleted_address(&mut self, index: u32, address: [u8; 4]) {
        self.noted(|ours, _| ours.deleted_address(index, &address));
    }

    fn deleted_address(&mut self, index: u32, address: [u8; 4]) {
        self.ours_deleted_address(index, address);
        self.rust.deleted_address(index, address);
    }

    fn ours_subscribe(&mut self, kind: &str) {
        self.noted(|ours, outbox| ours.subscribe(kind, outbox));
    }

    fn subscribe(&mut self, kind: &str) {
        self.ours_subscribe(kind);
        self.rust.subscribe(kind);
    }

    fn ours_advertise(&mut self, name: &str) {
        self.noted(|ours, outbox| ours.advertise(name, KIND, LOCATION, outbox));
    }

    fn advertise(&mut self, name: &str) {
        self.ours_advertise(name);
        self.rust.advertise(name, KIND, LOCATION);
    }

    fn ours_deadvertise(&mut self, name: &str) {
        self.noted(|ours, outbox| ours.deadvertise(name, outbox));
    }

    fn deadvertise(&mut self, name: &str) {
        self.ours_deadvertise(name);
        self.rust.deadvertise(name);
    }

    fn ours_refresh(&mut self) {
        self.noted(|ours, outbox| ours.refresh(outbox));
    }

    fn ours_reset(&mut self) {
        self.noted(|ours, _| ours.reset_refresh_timer(NOW));
    }

    /// How many records the latest call wrote, on both sides, where they are the same.
    fn same(&self) -> usize {
        assert_eq!(records(&self.outbox, self.records), self.rust.records());
        assert_eq!(self.ours.poll(), self.rust.poll());
        self.records
    }

    /// A row of the table: the call of each engine, in a state that `ready` makes anew each time.
    fn times(&mut self, what: &str, ready: impl Fn(&mut Both), ours: impl Fn(&mut Both), rust: impl Fn(&mut Rust)) {
        let rust = |both: &mut Both| {
            rust(&mut both.rust);
            black_box(both.rust.poll());
        };
        ready(self);
        ours(self);
        rust(self);
        let records = self.same();
        row(what, records, self, ready, ours, rust);
    }
}

/// Heads and messages of the first records of an outbox.
fn records(outbox: &[u8], count: usize) -> Vec<Vec<u8>> {
    let len = |record: &[u8]| 12 + usize::from(record[10]) * 256 + usize::from(record[11]);
    outbox.chunks(RECORD_SIZE).take(count).map(|record| record[..len(record)].to_vec()).collect()
}

fn search(target: &str) -> Vec<u8> {
    format!("M-SEARCH * HTTP/1.1\r\nHOST: 239.255.255.250:1900\r\nMAN: \"ssdp:discover\"\r\nMX: 1\r\nST: {target}\r\n\r\n").into()
}

/// A search for all names: replies are served first, so that none waits, and opened by the first searcher if they are to wait.
fn search_row(what: &str, both: &mut Both, opened: bool, sender: SocketAddrV4, target: &str) {
    let datagram = &search(target);
    let ready = |both: &mut Both| {
        both.timeout(LATER);
        if opened {
            both.data(FIRST, datagram);
        }
    };
    both.times(what, ready, |both| both.ours_data(sender, datagram), |rust| _ = rust.on_data(NOW, sender, HERE, datagram));
    assert_eq!(both.ours.waiting(), NAMES);
}

/// `handle_timeout` with the replies that these searchers wait for.
fn timeout_row(what: &str, both: &mut Both, searchers: &[SocketAddrV4]) {
    let datagram = search(KIND);
    both.timeout(LATER);
    let ready = |both: &mut Both| searchers.iter().for_each(|searcher| both.data(*searcher, &datagram));
    both.times(what, ready, |both| both.ours_timeout(LATER), |rust| rust.handle_timeout(LATER));
}

/// The calls that a busy network makes.
fn busy(both: &mut Both) {
    search_row(&format!("search matching {NAMES} names"), both, false, FIRST, KIND);
    search_row("search for `ssdp:all`", both, false, FIRST, "ssdp:all");
    search_row("joining search", both, true, SECOND, KIND);
    search_row("same-sender repeat", both, true, FIRST, KIND);
    timeout_row(&format!("handle_timeout, {NAMES} group waits on 6 addresses"), both, &[FIRST, SECOND]);
    timeout_row(&format!("handle_timeout, {NAMES} lone waits"), both, &[FIRST]);
    timeout_row("handle_timeout, nothing due", both, &[]);
    both.times("refresh", |_| (), Both::ours_refresh, Rust::refresh);
}

/// Datagrams that change nothing, with four subscriptions.
fn passing(both: &mut Both) {
    let mut buffer = [0; kohlsilk::MESSAGE_MAX];
    let notify = kohlsilk::build_notify(&mut buffer, KIND, format!("uuid:1::{KIND}"), LOCATION).unwrap().to_vec();
    let told = both.ours.on_data(NOW, FIRST, HERE.into(), &notify).unwrap().told;
    assert_eq!((told, both.rust.on_data(NOW, FIRST, HERE, &notify)), (0, 0));
    for (what, datagram) in [("notify matching none of 4", &notify[..]), ("unparseable datagram", b"GET / HTTP/1.1\r\n\r\n")] {
        both.times(what, |_| (), |both| both.ours_data(FIRST, datagram), |rust| _ = rust.on_data(NOW, FIRST, HERE, datagram));
    }
}

/// The calls of the services on this machine: the name in the middle of the table comes and goes.
fn services(both: &mut Both) {
    let (name, other) = (&name(NAMES / 2), &format!("{}x", name(NAMES / 2)));
    let advertise = |rust: &mut Rust| rust.advertise(name, KIND, LOCATION);
    both.times("advertise, new", |both| both.deadvertise(name), |both| both.ours_advertise(name), advertise);
    both.times("advertise, replacing", |_| (), |both| both.ours_advertise(name), advertise);
    both.times("deadvertise, known", |both| both.advertise(name), |both| both.ours_deadvertise(name), |rust| rust.deadvertise(name));
    both.times("deadvertise, unknown", |_| (), |both| both.ours_deadvertise(other), |rust| rust.deadvertise(other));
    let [first @ .., last] = &SUBSCRIPTIONS;
    both.times("subscribe, the fourth", |both| both.begin(first), |both| both.ours_subscribe(last), |rust| rust.subscribe(last));
}

/// News of the network, of the last of three links.
fn news(both: &mut Both) {
    let [one, two] = addresses(LINK);
    let there = |both: &mut Both| {
        both.link(LINK, UP);
        both.address(LINK, one);
        both.address(LINK, two);
    };
    let up = |both: &mut Both| both.ours_link(LINK, UP);
    both.times("new_link, known", |_| (), up, |rust| rust.link(LINK, UP));
    both.times("new_link, turning up", |both| both.link(LINK, DOWN), up, |rust| rust.link(LINK, UP));
    both.times("new_link, new", |both| both.deleted_link(LINK), up, |rust| rust.link(LINK, UP));
    both.times("deleted_link", there, |both| both.ours_deleted_link(LINK), |rust| rust.deleted_link(LINK));
    there(both);
    let gone = |both: &mut Both| both.deleted_address(LINK, two);
    both.times("new_address", gone, |both| both.ours_address(LINK, two), |rust| rust.address(LINK, two));
    let again = |both: &mut Both| both.address(LINK, two);
    both.times("deleted_address", again, |both| both.ours_deleted_address(LINK, two), |rust| rust.deleted_address(LINK, two));
    both.times("reset_refresh_timer", |_| (), Both::ours_reset, |rust| rust.reset_refresh_timer(NOW));
    both.times("new", |both| both.begin(&[]), Both::ours_new, Rust::begin);
}

fn main() {
    head();
    busy(&mut Both::new(&[]));
    passing(&mut Both::new(&SUBSCRIPTIONS));
    services(&mut Both::new(&[]));
    news(&mut Both::new(&[]));
}
