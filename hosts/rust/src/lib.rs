//! Kohlsilk: an SSDP (UPnP discovery) engine without sockets. This crate has safe functions over its static library,
//! libhost.a, whose every function is proved to meet its contract; it needs neither `std` nor an allocator.
//!
//! The host keeps sockets, clock and news of the network. It hands datagrams and times in, sends the records that a call
//! writes to the outbox, and calls [`Engine::handle_timeout`] when [`Engine::poll`] has come. Nothing blocks. A call that
//! cannot be accepted is an `Err` with a numbered [`Refusal`], and has changed nothing.
//!
//! ```
//! use kohlsilk::{flags, Engine, Message, OUTBOX_SIZE};
//! use std::net::Ipv4Addr;
//!
//! let mut outbox = vec![0; OUTBOX_SIZE];
//! let mut engine = Engine::new(0, 0)?;
//!
//! // A link with an address, as the host's network has it; the host has joined the group on it (outcome 0).
//! engine.new_link(1, flags::UP | flags::RUNNING | flags::MULTICAST, 0, &mut outbox)?;
//! engine.new_address(1, &[10, 0, 0, 1], &mut outbox)?;
//!
//! // A service is announced at once, from every address.
//! let answer = engine.advertise("u1", "t:2", "http://h/d", &mut outbox)?;
//! let record = answer.records_in(&outbox).next().unwrap();
//! assert_eq!(record.destination, kohlsilk::GROUP);
//! assert_eq!(record.source, Ipv4Addr::new(10, 0, 0, 1));
//! let alive = Message::NotifyAlive { notification_type: "t:2", unique_service_name: "u1", location: "http://10.0.0.1/d" };
//! assert_eq!(kohlsilk::parse(record.message), Ok(alive));
//!
//! // Two searchers ask for it before its reply is sent: one reply waits for both.
//! let search = b"M-SEARCH * HTTP/1.1\r\nST: t:1\r\nMX: 1\r\n";
//! let here = Ipv4Addr::new(10, 0, 0, 1);
//! let first = engine.on_data(100, "10.0.0.9:5000".parse().unwrap(), here, search)?;
//! let second = engine.on_data(101, "10.0.0.8:5000".parse().unwrap(), here, search)?;
//! assert_eq!((first.matched, first.joined, first.waiting), (1, 0, 1));
//! assert_eq!((second.matched, second.joined, second.waiting), (1, 1, 1));
//!
//! // Their reply goes to the group, behind the refresh that was due from the start.
//! let answer = engine.handle_timeout(110, &mut outbox)?;
//! assert_eq!((answer.records, answer.group, answer.waiting, answer.poll), (2, 1, 0, 6000));
//! for record in answer.records_in(&outbox) {
//!     // Here the host sends `record.message` from `record.source` to `record.destination`.
//!     assert_eq!(kohlsilk::parse(record.message), Ok(alive));
//! }
//! # Ok::<(), kohlsilk::Refusal>(())
//! ```
#![no_std]
#![deny(unsafe_code, missing_docs, missing_debug_implementations)]

#[cfg(not(target_arch = "x86_64"))]
compile_error!("libhost.a is built for x86-64");

#[allow(unsafe_code)]
mod abi;
mod answer;
mod engine;
mod message;
mod name;
mod record;
mod refusal;
mod sizes;

pub use answer::Answer;
pub use engine::{Engine, RefusedStart};
pub use message::{build_byebye, build_notify, build_response, build_search, parse, Message, MESSAGE_MAX};
pub use name::{Name, Reply};
pub use record::{Record, Records};
pub use refusal::Refusal;
pub use sizes::{ADDRESSES, LINKS, LOCATION_SIZE, NAMES, NAME_SIZE, OUTBOX_SIZE, RECORDS, RECORD_SIZE, SUBSCRIPTIONS, TIME_MAX, TYPE_SIZE};

/// The flags of a link, as the kernel has them.
pub mod flags {
    /// The link is enabled.
    pub const UP: u32 = 0x1;
    /// It is operational.
    pub const RUNNING: u32 = 0x40;
    /// It can send to a group.
    pub const MULTICAST: u32 = 0x1000;
}

/// The group, to which announcements and searches go.
pub const GROUP: core::net::SocketAddrV4 = core::net::SocketAddrV4::new(core::net::Ipv4Addr::new(239, 255, 255, 250), 1900);
