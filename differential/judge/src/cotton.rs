//! The Rust engine, the reference, under the same calls: what it sends, whom it tells, when it wants to be woken.
use crate::call::{Call, Peer, Record};
use cotton_netif::{Flags, InterfaceIndex, NetworkEvent};
use cotton_ssdp::engine::{Callback, Engine};
use cotton_ssdp::refresh_timer::Timebase;
use cotton_ssdp::udp::{self, Multicast, Syscall, TargetedSend};
use cotton_ssdp::{Advertisement, Notification};
use std::cell::{Cell, RefCell};
use std::net::{IpAddr, Ipv4Addr, Ipv6Addr, SocketAddr, SocketAddrV4};
use std::rc::Rc;

/// Instants are milliseconds.
pub struct Milliseconds;

#[derive(Debug)]
pub struct Span(u64);

impl Timebase for Milliseconds {
    type Duration = Span;
    type Instant = u64;
}

impl From<std::time::Duration> for Span {
    fn from(duration: std::time::Duration) -> Self {
        Span(duration.as_millis() as u64)
    }
}

impl std::ops::AddAssign<Span> for u64 {
    fn add_assign(&mut self, span: Span) {
        *self += span.0;
    }
}

/// Sets its subscription's bit and counts.
struct Subscriber {
    bit: u32,
    mask: Rc<Cell<u32>>,
    told: Rc<Cell<u32>>,
}

impl Callback for Subscriber {
    fn on_notification(&self, _: &Notification) {
        self.mask.set(self.mask.get() | self.bit);
        self.told.set(self.told.get() + 1);
    }
}

/// A socket that keeps what is sent and answers joins and leaves with the outcome that the host hands in.
struct Socket {
    sent: RefCell<Vec<Record>>,
    outcome: u32,
}

impl TargetedSend for Socket {
    fn send_with<F>(&self, size: usize, to: &SocketAddr, from: &IpAddr, f: F) -> Result<(), udp::Error>
    where
        F: FnOnce(&mut [u8]) -> usize,
    {
        let mut buffer = vec![0; size];
        let length = f(&mut buffer);
        buffer.truncate(length);
        let (SocketAddr::V4(to), IpAddr::V4(from)) = (to, from) else {
            panic!("the engine sends over IPv4 alone");
        };
        let to = Peer { address: *to.ip(), port: to.port() };
        self.sent.borrow_mut().push(Record { to, from: *from, message: buffer });
        Ok(())
    }
}

impl Multicast for Socket {
    fn join_multicast_group(&self, _: &IpAddr, _: InterfaceIndex) -> Result<(), udp::Error> {
        outcome(Syscall::JoinMulticast, self.outcome)
    }

    fn leave_multicast_group(&self, _: &IpAddr, _: InterfaceIndex) -> Result<(), udp::Error> {
        outcome(Syscall::LeaveMulticast, self.outcome)
    }
}

fn outcome(call: Syscall, number: u32) -> Result<(), udp::Error> {
    if number == 0 {
        Ok(())
    } else {
        Err(udp::Error::Syscall(call, number))
    }
}

/// What the Rust shows of one call.
pub struct Shown {
    pub records: Vec<Record>,
    pub mask: u32,
    pub told: u32,
    pub failed: Result<(), udp::Error>,
    pub poll: u64,
}

pub struct Cotton {
    engine: Engine<Subscriber, Milliseconds>,
    subscriptions: u32,
    mask: Rc<Cell<u32>>,
    told: Rc<Cell<u32>>,
}

impl Cotton {
    pub fn new(seed: u32, now: u64) -> Self {
        Self { engine: Engine::new(seed, now), subscriptions: 0, mask: Rc::default(), told: Rc::default() }
    }

    /// One call that document 01 accepts.
    pub fn call(&mut self, call: &Call) -> Shown {
        let outcome = match call {
            Call::Link { outcome, .. } | Call::DelLink { outcome, .. } => *outcome,
            _ => 0,
        };
        let socket = Socket { sent: RefCell::default(), outcome };
        self.mask.set(0);
        self.told.set(0);
        let failed = self.made(call, &socket);
        Shown {
            records: socket.sent.into_inner(),
            mask: self.mask.get(),
            told: self.told.get(),
            failed,
            poll: self.engine.poll_timeout(),
        }
    }

    fn made(&mut self, call: &Call, socket: &Socket) -> Result<(), udp::Error> {
        match call {
            Call::New { .. } => unreachable!("`new` does not come again"),
            Call::Link { index: link, flags: bits, .. } => {
                let event = NetworkEvent::NewLink(index(*link), String::new(), flags(*bits));
                return self.engine.on_network_event(&event, socket, socket);
            }
            Call::DelLink { index: link, .. } => {
                return self.engine.on_network_event(&NetworkEvent::DelLink(index(*link)), socket, socket);
            }
            Call::Addr { index: link, address } => {
                let event = NetworkEvent::NewAddr(index(*link), ip(address), 24);
                return self.engine.on_network_event(&event, socket, socket);
            }
            Call::DelAddr { index: link, address } => {
                let event = NetworkEvent::DelAddr(index(*link), ip(address), 24);
                return self.engine.on_network_event(&event, socket, socket);
            }
            Call::Subscribe { kind } => {
                let bit = 1 << self.subscriptions;
                self.subscriptions += 1;
                let callback = Subscriber { bit, mask: self.mask.clone(), told: self.told.clone() };
                self.engine.subscribe(text(kind), callback, socket);
            }
            Call::Advertise { name, kind, location } => {
                let advertisement = Advertisement { notification_type: text(kind), location: text(location) };
                self.engine.advertise(text(name), advertisement, socket);
            }
            // A name that is no UTF-8 cannot be said to the Rust, and was never held.
            Call::Deadvertise { name } => {
                if let Ok(name) = std::str::from_utf8(name) {
                    self.engine.deadvertise(name, socket);
                }
            }
            Call::Refresh => self.engine.refresh(socket),
            Call::Data { now, from, to, datagram } => {
                let from = SocketAddr::V4(SocketAddrV4::new(from.address, from.port));
                self.engine.on_data(datagram, IpAddr::V4(*to), from, *now);
            }
            Call::Timeout { now } => self.engine.handle_timeout(socket, *now),
            Call::Reset { now } => self.engine.reset_refresh_timer(*now),
        }
        Ok(())
    }
}

fn index(number: u32) -> InterfaceIndex {
    InterfaceIndex(number.try_into().unwrap())
}

/// The Rust's `Flags` can only be put together from its named bits.
fn flags(bits: u32) -> Flags {
    let named = [
        (0x1, Flags::UP),
        (0x2, Flags::BROADCAST),
        (0x4, Flags::LOOPBACK),
        (0x8, Flags::POINTTOPOINT),
        (0x40, Flags::RUNNING),
        (0x1000, Flags::MULTICAST),
    ];
    let set = named.iter().filter(|(bit, _)| bits & bit != 0);
    set.fold(Flags::empty(), |all, (_, flag)| all | *flag)
}

/// The rule of linux_netlink.rs: 4 bytes are IPv4, 16 are IPv6.
fn ip(address: &[u8]) -> IpAddr {
    match <[u8; 4]>::try_from(address) {
        Ok(four) => IpAddr::V4(Ipv4Addr::from(four)),
        Err(_) => IpAddr::V6(Ipv6Addr::from(<[u8; 16]>::try_from(address).unwrap())),
    }
}

fn text(bytes: &[u8]) -> String {
    String::from_utf8(bytes.to_vec()).unwrap()
}
