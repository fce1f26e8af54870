//! The Rust engine, the reference, with an outbox: its socket writes each datagram into a record, as ours does, but pads nothing.
use cotton_netif::{Flags, InterfaceIndex, NetworkEvent};
use cotton_ssdp::engine::{Callback, Engine};
use cotton_ssdp::refresh_timer::Timebase;
use cotton_ssdp::udp::{self, Multicast, TargetedSend};
use cotton_ssdp::{Advertisement, Notification};
use kohlsilk::{flags, OUTBOX_SIZE, RECORD_SIZE};
use std::cell::{Cell, RefCell};
use std::net::{IpAddr, SocketAddr, SocketAddrV4};
use std::rc::Rc;

/// Instants are milliseconds.
pub struct Milliseconds;

#[derive(Debug)]
pub struct Span(u64);

impl Timebase for Milliseconds {
    type Duration = Span;
    type Instant = u64;
}

impl From<std::time::Duration> for Span {
    fn from(duration: std::time::Duration) -> Self {
        Span(duration.as_millis() as u64)
    }
}

impl std::ops::AddAssign<Span> for u64 {
    fn add_assign(&mut self, span: Span) {
        *self += span.0;
    }
}

struct Subscriber(Rc<Cell<u32>>);

impl Callback for Subscriber {
    fn on_notification(&self, _: &Notification) {
        self.0.set(self.0.get() + 1);
    }
}

struct Outbox {
    bytes: RefCell<Vec<u8>>,
    count: Cell<usize>,
}

impl TargetedSend for Outbox {
    fn send_with<F>(&self, size: usize, to: &SocketAddr, from: &IpAddr, f: F) -> Result<(), udp::Error>
    where
        F: FnOnce(&mut [u8]) -> usize,
    {
        let (SocketAddr::V4(to), IpAddr::V4(from)) = (to, from) else { panic!("the engine sends over IPv4 alone") };
        let at = RECORD_SIZE * self.count.get();
        let record = &mut self.bytes.borrow_mut()[at..at + RECORD_SIZE];
        let len = f(&mut record[12..12 + size]) as u16;
        record[0..4].copy_from_slice(&to.ip().octets());
        record[4..6].copy_from_slice(&to.port().to_be_bytes());
        record[6..10].copy_from_slice(&from.octets());
        record[10..12].copy_from_slice(&len.to_be_bytes());
        self.count.set(self.count.get() + 1);
        Ok(())
    }
}

impl Multicast for Outbox {
    fn join_multicast_group(&self, _: &IpAddr, _: InterfaceIndex) -> Result<(), udp::Error> {
        Ok(())
    }

    fn leave_multicast_group(&self, _: &IpAddr, _: InterfaceIndex) -> Result<(), udp::Error> {
        Ok(())
    }
}

pub struct Rust {
    engine: Engine<Subscriber, Milliseconds>,
    outbox: Outbox,
    told: Rc<Cell<u32>>,
}

/// `on_data` answers how many subscriptions it told.
impl Rust {
    pub fn new() -> Self {
        let outbox = Outbox { bytes: vec![0; OUTBOX_SIZE].into(), count: Cell::new(0) };
        Rust { engine: Engine::new(0, 0), outbox, told: Rc::default() }
    }

    /// An engine anew, in the outbox that is there.
    pub fn begin(&mut self) {
        self.outbox.count.set(0);
        self.engine = Engine::new(0, 0);
    }

    fn news(&mut self, event: &NetworkEvent) {
        self.outbox.count.set(0);
        self.engine.on_network_event(event, &self.outbox, &self.outbox).unwrap();
    }

    pub fn link(&mut self, index: u32, flags: u32) {
        let named = [(flags::UP, Flags::UP), (flags::RUNNING, Flags::RUNNING), (flags::MULTICAST, Flags::MULTICAST)];
        let all = named.iter().filter(|(bit, _)| flags & bit != 0).fold(Flags::empty(), |all, (_, flag)| all | *flag);
        self.news(&NetworkEvent::NewLink(numbered(index), String::new(), all));
    }

    pub fn deleted_link(&mut self, index: u32) {
        self.news(&NetworkEvent::DelLink(numbered(index)));
    }

    pub fn address(&mut self, index: u32, address: [u8; 4]) {
        self.news(&NetworkEvent::NewAddr(numbered(index), IpAddr::from(address), 24));
    }

    pub fn deleted_address(&mut self, index: u32, address: [u8; 4]) {
        self.news(&NetworkEvent::DelAddr(numbered(index), IpAddr::from(address), 24));
    }

    pub fn advertise(&mut self, name: &str, kind: &str, location: &str) {
        self.outbox.count.set(0);
        let advertisement = Advertisement { notification_type: kind.into(), location: location.into() };
        self.engine.advertise(name.into(), advertisement, &self.outbox);
    }

    pub fn deadvertise(&mut self, name: &str) {
        self.outbox.count.set(0);
        self.engine.deadvertise(name, &self.outbox);
    }

    pub fn subscribe(&mut self, kind: &str) {
        self.outbox.count.set(0);
        self.engine.subscribe(kind.into(), Subscriber(self.told.clone()), &self.outbox);
    }

    pub fn on_data(&mut self, time: u64, sender: SocketAddrV4, receiver: [u8; 4], datagram: &[u8]) -> u32 {
        self.outbox.count.set(0);
        self.told.set(0);
        self.engine.on_data(datagram, IpAddr::from(receiver), sender.into(), time);
        self.told.get()
    }

    pub fn handle_timeout(&mut self, time: u64) {
        self.outbox.count.set(0);
        self.engine.handle_timeout(&self.outbox, time);
    }

    pub fn refresh(&mut self) {
        self.outbox.count.set(0);
        self.engine.refresh(&self.outbox);
    }

    pub fn reset_refresh_timer(&mut self, time: u64) {
        self.outbox.count.set(0);
        self.engine.reset_refresh_timer(time);
    }

    pub fn poll(&self) -> u64 {
        self.engine.poll_timeout()
    }

    /// The records of the latest call: heads and messages.
    pub fn records(&self) -> Vec<Vec<u8>> {
        crate::records(&self.outbox.bytes.borrow(), self.outbox.count.get())
    }
}

fn numbered(index: u32) -> InterfaceIndex {
    InterfaceIndex(index.try_into().unwrap())
}
