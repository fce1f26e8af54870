//! `differences`: runs the Rust as it was published on the smallest inputs at which it parts from documents 01 and 02, and at which both part
//! from the UPnP Device Architecture. docs/DIFFERENCES.md has the same numbers; a line here says what the Rust did.
use cotton_netif::{Flags, InterfaceIndex};
use cotton_ssdp::engine::leaves::{rewrite_host, target_match};
use cotton_ssdp::published::{Callback, Engine};
use cotton_ssdp::message::{build_byebye, build_notify, build_response, build_search, parse, Message};
use cotton_ssdp::udp::{Error, Multicast, Syscall, TargetedSend};
use cotton_ssdp::{Advertisement, Notification};
use judge::Milliseconds;
use std::cell::RefCell;
use std::net::{IpAddr, SocketAddr};
use std::panic::{catch_unwind, AssertUnwindSafe};

struct Nobody;

impl Callback for Nobody {
    fn on_notification(&self, _: &Notification) {}
}

/// Keeps what is sent as (destination, text); joins and leaves answer this outcome.
#[derive(Default)]
struct Socket(RefCell<Vec<(SocketAddr, String)>>, u32);

impl TargetedSend for Socket {
    fn send_with<F: FnOnce(&mut [u8]) -> usize>(&self, size: usize, to: &SocketAddr, _: &IpAddr, f: F) -> Result<(), Error> {
        let mut buffer = vec![0; size];
        let length = f(&mut buffer);
        self.0.borrow_mut().push((*to, String::from_utf8_lossy(&buffer[..length]).into()));
        Err(Error::Syscall(Syscall::JoinMulticast, 1))
    }
}

impl Multicast for Socket {
    fn join_multicast_group(&self, _: &IpAddr, _: InterfaceIndex) -> Result<(), Error> {
        self.leave_multicast_group(&IpAddr::from([0; 4]), link(1))
    }

    fn leave_multicast_group(&self, _: &IpAddr, _: InterfaceIndex) -> Result<(), Error> {
        if self.1 == 0 {
            Ok(())
        } else {
            Err(Error::Syscall(Syscall::LeaveMulticast, self.1))
        }
    }
}

type Rust = Engine<Nobody, Milliseconds>;

fn link(index: u32) -> InterfaceIndex {
    InterfaceIndex(index.try_into().unwrap())
}

fn up() -> Flags {
    Flags::UP | Flags::RUNNING | Flags::MULTICAST
}

/// An engine with one up link, one address and one name.
fn engine(seed: u32, kind: &str, location: &str) -> (Rust, Socket) {
    let (mut engine, socket) = (Rust::new(seed, 0), Socket::default());
    engine.on_new_link_event(&link(1), &up(), &socket, &socket).unwrap();
    engine.on_new_addr_event(&link(1), &IpAddr::from([10, 0, 0, 1]), &socket);
    let advertisement = Advertisement { notification_type: kind.into(), location: location.into() };
    engine.advertise("u".into(), advertisement, &socket);
    (engine, socket)
}

fn ask(engine: &mut Rust, host: u8, datagram: &str) {
    let from = SocketAddr::from(([10, 0, 0, host], 5000));
    engine.on_data(datagram.as_bytes(), IpAddr::from([10, 0, 0, 1]), from, 0);
}

fn sent(socket: &Socket) -> Vec<(SocketAddr, String)> {
    socket.0.take()
}

/// The header names of a message, its first line left out.
fn keys(message: &str) -> Vec<String> {
    message.lines().skip(1).filter_map(|line| line.split_once(':')).map(|(key, _)| key.into()).collect()
}

fn text(build: impl Fn(&mut [u8]) -> usize) -> String {
    let mut buffer = [0; 1024];
    let length = build(&mut buffer);
    String::from_utf8(buffer[..length].into()).unwrap()
}

fn main() {
    std::panic::set_hook(Box::new(|_| ()));
    against_the_document();
    against_the_architecture();
}

fn against_the_document() {
    let zero = catch_unwind(AssertUnwindSafe(|| ask(&mut Rust::new(0, 0), 9, "M-SEARCH * HTTP/1.1\nST:\nMX:0")));
    println!("1  MX 0 with nothing advertised: panics {}", zero.is_err());

    let (mut long, socket) = engine(0, "t:1", "/");
    sent(&socket);
    ask(&mut long, 9, &format!("M-SEARCH * HTTP/1.1\nST:t:{}1\nMX:1", "0".repeat(78)));
    long.handle_timeout(&socket, 10);
    println!("2  target of 81 bytes: {} replies", sent(&socket).iter().filter(|(to, _)| to.port() == 5000).count());

    let (mut full, socket) = engine(0, "t", "/");
    for k in 1..9 {
        full.advertise(format!("u{k}"), Advertisement { notification_type: "t".into(), location: "/".into() }, &socket);
        full.subscribe("t".into(), Nobody, &socket);
        full.on_new_link_event(&link(k + 1), &up(), &socket, &socket).unwrap();
        full.on_new_addr_event(&link(1), &IpAddr::from([10, 0, 1, k as u8]), &socket);
    }
    sent(&socket);
    full.refresh(&socket);
    println!("3  9 names, 8 subscriptions, 9 addresses: refresh sends {}", sent(&socket).len());

    let forged = text(|b| build_notify(b, "t", "u\r\nNTS: ssdp:byebye", "/"));
    println!("4  a name with a line end: its alive notice reads as {:?}", parse(forged.as_bytes()).unwrap());
    let (_, socket) = engine(0, "t", " http://h/ ");
    let Message::NotifyAlive { location, .. } = parse(sent(&socket)[0].1.as_bytes()).unwrap() else { panic!() };
    println!("4  location ` http://10.0.0.1/ ` reads as `{location}`");

    let (_, socket) = engine(0, "t", &format!("/{}", "x".repeat(400)));
    println!("5  location of 401 bytes: the notify is cut, parse of it {:?}", parse(sent(&socket)[0].1.as_bytes()).err());

    let mut buffer = [b'.'; 84];
    let length = build_search(&mut buffer, "");
    println!("6  build_search with an empty type (86 bytes) in 84: length {length}, parse {:?}", parse(&buffer[..length]).err());

    let (mut late, socket) = engine(0, "t", "/");
    late.handle_timeout(&socket, 1 << 63);
    println!("7  handle_timeout at 2^63: poll {}", late.poll_timeout());

    let (mut other, socket) = engine(0, "t", "/");
    let failing = Socket(RefCell::default(), 7);
    println!("9  join outcome 7: {:?}", other.on_new_link_event(&link(2), &up(), &failing, &socket));
    println!("10 leave outcome 7: {:?}", other.on_del_link_event(&link(1), &failing));
    sent(&socket);
    other.refresh(&socket);
    println!("10 the link is gone all the same: refresh sends {}", sent(&socket).len());

    ask(&mut other, 9, "");
    ask(&mut other, 9, "x");
    println!("11 an empty and a damaged datagram: on_data answers nothing");
    println!("12 a failing send_with: ignored (every send of this run failed)");

    let (_, socket) = engine(0, "t", "/");
    println!("15 advertise at one up address: sends {} message, and is lent no outbox", sent(&socket).len());

    let due = [0, 999].map(|seed| {
        let (mut added, socket) = engine(seed, "t", "/");
        added.handle_timeout(&socket, 0);
        ask(&mut added, 9, "M-SEARCH * HTTP/1.1\nST:t\nMX:1");
        added.poll_timeout()
    });
    println!("17 MX 1 at 0: reply due at {} with seed 0, at {} with seed 999", due[0], due[1]);
}

fn against_the_architecture() {
    println!("U1 byebye has {:?}", keys(&text(|b| build_byebye(b, "t", "u"))));
    println!("U2 response has {:?}", keys(&text(|b| build_response(b, "t", "u", "/"))));
    println!("   notify has {:?}", keys(&text(|b| build_notify(b, "t", "u", "/"))));

    let search = "M-SEARCH * HTTP/1.1\nST:t\nMX:1";
    let (mut plain, socket) = engine(0, "t", "/");
    plain.handle_timeout(&socket, 0);
    ask(&mut plain, 9, search);
    println!("U3 a search with neither HOST nor MAN: reply due at {}", plain.poll_timeout());

    let (mut two, socket) = engine(0, "t", "/");
    two.handle_timeout(&socket, 0);
    sent(&socket);
    ask(&mut two, 8, search);
    ask(&mut two, 9, search);
    two.handle_timeout(&socket, 10);
    let replies = sent(&socket);
    println!("U4 two askers: {} message(s), to {}, `{}`", replies.len(), replies[0].0, replies[0].1.lines().next().unwrap());

    let (mut once, socket) = engine(0, "t:2", "/");
    once.handle_timeout(&socket, 0);
    sent(&socket);
    ask(&mut once, 9, "M-SEARCH * HTTP/1.1\nST:t:1\nMX:1");
    ask(&mut once, 9, "M-SEARCH * HTTP/1.1\nST:t:2\nMX:1");
    once.handle_timeout(&socket, 10);
    println!("U5 one asker, targets t:1 and t:2: {} reply", sent(&socket).len());

    let body = parse(b"M-SEARCH * HTTP/1.1\n\nST:t\nMX:1");
    println!("U7 headers behind a blank line: {body:?}");
    println!("U8 `ST : t`: {:?}; folded `ST:\\n t`: {:?}", parse(b"M-SEARCH * HTTP/1.1\nST : t\nMX:1").err(), parse(b"M-SEARCH * HTTP/1.1\nST:\n t\nMX:1"));
    println!("U9 `uuid:1` finds `uuid:2`: {}", target_match("uuid:1", "uuid:2"));
    let ip = IpAddr::from([10, 0, 0, 1]);
    for url in ["http://h:80", "http://[::1]:80/d", "http://a:b@h/d", "x?://y"] {
        println!("U10 {url} becomes {}", rewrite_host(url, &ip));
    }
}
