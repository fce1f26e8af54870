//! Records: the datagrams that a call has the host send.
use crate::sizes::RECORD_SIZE;
use core::net::{Ipv4Addr, SocketAddrV4};

/// Where the message begins in a record.
const HEAD: usize = 12;

/// A datagram to be sent.
#[derive(Clone, Copy, Debug, PartialEq, Eq)]
pub struct Record<'a> {
    /// Where it goes: to one searcher, or to the group.
    pub destination: SocketAddrV4,
    /// The host's address from which it goes. One to the group goes out on the link that has this address.
    pub source: Ipv4Addr,
    /// What is sent.
    pub message: &'a [u8],
}

impl<'a> Record<'a> {
    /// Reads the record at the start of the bytes, if they are long enough for it.
    fn read(bytes: &'a [u8]) -> Option<Record<'a>> {
        let (head, rest) = (bytes.get(..HEAD)?, bytes.get(HEAD..RECORD_SIZE)?);
        let address = |k: usize| Ipv4Addr::new(head[k], head[k + 1], head[k + 2], head[k + 3]);
        let number = |k: usize| u16::from_be_bytes([head[k], head[k + 1]]);
        Some(Record { destination: SocketAddrV4::new(address(0), number(4)), source: address(6), message: rest.get(..number(10).into())? })
    }
}

/// The records of a call, in the order in which they are to be sent.
#[derive(Clone, Debug)]
pub struct Records<'a> {
    rest: &'a [u8],
    count: usize,
}

impl<'a> Records<'a> {
    pub(crate) fn new(outbox: &'a [u8], count: usize) -> Records<'a> {
        Records { rest: outbox, count }
    }
}

impl<'a> Iterator for Records<'a> {
    type Item = Record<'a>;

    /// Ends early where the outbox is not the one that was lent to the call, and holds no record.
    fn next(&mut self) -> Option<Record<'a>> {
        self.count = self.count.checked_sub(1)?;
        let record = Record::read(self.rest)?;
        self.rest = &self.rest[RECORD_SIZE..];
        Some(record)
    }

    fn size_hint(&self) -> (usize, Option<usize>) {
        (0, Some(self.count))
    }
}
