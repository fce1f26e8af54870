//! The sockets of a link. Each link has its own, so that one whose queue is full holds up no other.
use crate::socket::Socket;
use kohlsilk::{Record, GROUP};
use std::io;

/// `group` hears the group and speaks for the services. `search` asks: answers come to its own port, which no other program shares.
pub struct Sockets {
    pub group: Socket,
    pub search: Socket,
    pub search_port: u16,
}

impl Sockets {
    /// Sockets that hear the group on a link.
    pub fn open(index: u32, ttl: u8) -> io::Result<Sockets> {
        let (group, search) = (Socket::bound(GROUP.port(), ttl)?, Socket::bound(0, ttl)?);
        group.join(index)?;
        Ok(Sockets { search_port: search.port()?, group, search })
    }

    pub fn both(&self) -> [&Socket; 2] {
        [&self.group, &self.search]
    }

    /// How many datagrams the kernel has dropped because they were not read fast enough.
    pub fn dropped(&self) -> u64 {
        self.both().iter().map(|socket| u64::from(socket.dropped())).sum()
    }

    /// Sends a record, to the group on `link`, or where the routes lead for 0. It does not wait.
    pub fn send(&self, record: &Record, link: u32) -> io::Result<()> {
        let socket = if record.message.starts_with(b"M-SEARCH ") { &self.search } else { &self.group };
        socket.send(record, link)
    }
}
