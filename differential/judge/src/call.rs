//! The calls of document 01's engine with their arguments, and what a call answers.
use crate::RECORD;
use std::net::Ipv4Addr;

/// One call on an engine. Texts and datagrams are any bytes; `lent` bytes of outbox come with each call.
#[derive(Clone, Debug)]
pub enum Call {
    New { seed: u32, now: u64 },
    Link { index: u32, flags: u32, outcome: u32 },
    DelLink { index: u32, outcome: u32 },
    Addr { index: u32, address: Vec<u8> },
    DelAddr { index: u32, address: Vec<u8> },
    Subscribe { kind: Vec<u8> },
    Advertise { name: Vec<u8>, kind: Vec<u8>, location: Vec<u8> },
    Deadvertise { name: Vec<u8> },
    Refresh,
    Data { now: u64, from: Peer, to: Ipv4Addr, datagram: Vec<u8> },
    Timeout { now: u64 },
    Reset { now: u64 },
}

impl Call {
    /// Document 01, refusal 2: 'subscribe, advertise, deadvertise, refresh, handle_timeout, new link, new address', by their words in the session.
    pub fn sending_word(&self) -> Option<&'static str> {
        match self {
            Call::Link { .. } => Some("link"),
            Call::Addr { .. } => Some("addr"),
            Call::Subscribe { .. } => Some("subscribe"),
            Call::Advertise { .. } => Some("advertise"),
            Call::Deadvertise { .. } => Some("deadvertise"),
            Call::Refresh => Some("refresh"),
            Call::Timeout { .. } => Some("timeout"),
            Call::New { .. } | Call::DelLink { .. } | Call::DelAddr { .. } | Call::Data { .. } | Call::Reset { .. } => None,
        }
    }
}

/// A sender: IPv4 address and port.
#[derive(Clone, Copy, Debug, PartialEq, Eq)]
pub struct Peer {
    pub address: Ipv4Addr,
    pub port: u16,
}

/// 'Outbox': one message on its way, from one of the unit's own addresses.
#[derive(Clone, Debug, PartialEq, Eq)]
pub struct Record {
    pub to: Peer,
    pub from: Ipv4Addr,
    pub message: Vec<u8>,
}

impl Record {
    /// 'Destination 4 bytes, port 2, source 4, length 2, then the message, zeros to 524; numbers are big-endian.'
    pub fn bytes(&self) -> Vec<u8> {
        let Record { to, from, message } = self;
        let length = (message.len() as u16).to_be_bytes();
        let mut bytes = [&to.address.octets()[..], &to.port.to_be_bytes(), &from.octets(), &length, message].concat();
        bytes.resize(RECORD, 0);
        bytes
    }
}

/// What a call answers, besides the records that it writes.
#[derive(Clone, Debug, Default, PartialEq, Eq)]
pub struct Answer {
    pub refusal: u32,
    pub records: Vec<Record>,
    pub matched: u64,
    pub joined: u64,
    pub alone: u64,
    pub group: u64,
    pub dropped: u64,
    pub waiting: u64,
    pub poll: u64,
    pub mask: u32,
    pub told: u32,
    pub leave: u32,
}

impl Answer {
    /// The line of the session program.
    pub fn line(&self) -> String {
        format!(
            "{}\t{}\t{}\t{}\t{}\t{}\t{}\t{}\t{}\n",
            self.refusal,
            self.records.len(),
            self.matched,
            self.joined,
            self.alone,
            self.group,
            self.dropped,
            self.waiting,
            self.poll
        )
    }

    /// The lines that `trace` adds behind it.
    pub fn details(&self) -> String {
        let mut lines = format!("A {} {} {}\n", self.mask, self.told, self.leave);
        for record in &self.records {
            let Record { to, from, message } = record;
            lines += &format!("R {} {} {} {} ", to.address, to.port, from, message.len());
            for byte in message {
                lines.push(char::from_digit((byte >> 4).into(), 16).unwrap());
                lines.push(char::from_digit((byte & 15).into(), 16).unwrap());
            }
            lines.push('\n');
        }
        lines
    }
}
