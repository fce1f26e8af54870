//! The names that an engine holds, each with the reply that waits for it.
use crate::sizes::{LOCATION_PLACE, LOCATION_SIZE, NAME_SIZE, TYPE_PLACE, TYPE_SIZE};
use core::net::SocketAddrV4;

/// A name that is advertised.
#[derive(Clone, Copy, Debug, PartialEq, Eq)]
pub struct Name<'a> {
    /// The unique service name (USN).
    pub name: &'a str,
    /// The type.
    pub service_type: &'a str,
    /// The location, as it was advertised.
    pub location: &'a str,
    /// The reply that waits, if one does.
    pub reply: Option<Reply>,
}

/// A reply that waits for its instant.
#[derive(Clone, Copy, Debug, PartialEq, Eq)]
pub enum Reply {
    /// More than one has asked: it goes to the group.
    Group {
        /// When it is due.
        due: u64,
    },
    /// One has asked: it goes to this searcher alone.
    Searcher {
        /// When it is due.
        due: u64,
        /// The address and port that it goes to.
        searcher: SocketAddrV4,
    },
}

impl<'a> Name<'a> {
    /// Reads the two rows of a name. A length above its place's size means the whole place, as the library has it.
    pub(crate) fn read(numbers: &[u64], texts: &'a [u8]) -> Name<'a> {
        let text = |len: u64, place: usize, size: usize| {
            let len = len.min(size as u64) as usize;
            // The library takes no text that is not UTF-8.
            core::str::from_utf8(&texts[place..place + len]).unwrap_or_default()
        };
        Name {
            name: text(numbers[0], 0, NAME_SIZE),
            service_type: text(numbers[1], TYPE_PLACE, TYPE_SIZE),
            location: text(numbers[2], LOCATION_PLACE, LOCATION_SIZE),
            reply: Reply::read(&numbers[4..]),
        }
    }
}

impl Reply {
    /// Reads the five numbers of a reply: its kind, when it is due, and the searcher's address and port, of which the low bits count.
    fn read(numbers: &[u64]) -> Option<Reply> {
        let due = numbers[1];
        match numbers[0] {
            0 => None,
            1 => Some(Reply::Group { due }),
            _ => Some(Reply::Searcher { due, searcher: SocketAddrV4::new((numbers[2] as u32).into(), numbers[3] as u16) }),
        }
    }
}
