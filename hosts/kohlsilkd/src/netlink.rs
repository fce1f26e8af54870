//! News of links and addresses from the kernel (rtnetlink): those that are there, then each change.
use crate::network::Subnet;
use crate::socket::checked;
use std::collections::VecDeque;
use std::io;
use std::mem::{size_of_val, zeroed};
use std::net::Ipv4Addr;
use std::os::fd::{AsRawFd, FromRawFd, OwnedFd, RawFd};

#[derive(Clone, Debug, PartialEq, Eq)]
pub enum News {
    Link {
        index: u32,
        name: String,
        flags: u32,
        /// Its packets are those of a bridge, a bond or a team.
        is_port: bool,
    },
    LinkGone {
        index: u32,
    },
    Address {
        index: u32,
        address: Ipv4Addr,
        subnet: Subnet,
    },
    AddressGone {
        index: u32,
        address: Ipv4Addr,
    },
    /// The list that was asked for is at its end; it may have holes if something changed meanwhile.
    ListEnd {
        whole: bool,
    },
}

/// What the kernel lists.
#[derive(Clone, Copy)]
enum List {
    Links = libc::RTM_GETLINK as isize,
    Addresses = libc::RTM_GETADDR as isize,
}

pub struct Netlink {
    fd: OwnedFd,
    /// Lists to ask for, one after the other.
    wanted: VecDeque<List>,
    /// A survey was asked for while one was under way.
    again: bool,
    whole: bool,
    buffer: Vec<u8>,
}

impl Netlink {
    pub fn open() -> io::Result<Netlink> {
        let kind = libc::SOCK_RAW | libc::SOCK_CLOEXEC;
        // SAFETY: no memory is passed; the descriptor is owned from here on.
        let fd = checked(unsafe { libc::socket(libc::AF_NETLINK, kind, libc::NETLINK_ROUTE) })?;
        // SAFETY: `fd` was opened just now and nobody else has it.
        let fd = unsafe { OwnedFd::from_raw_fd(fd) };
        // SAFETY: a sockaddr_nl is numbers.
        let mut address: libc::sockaddr_nl = unsafe { zeroed() };
        address.nl_family = libc::AF_NETLINK as _;
        address.nl_groups = (libc::RTMGRP_LINK | libc::RTMGRP_IPV4_IFADDR) as u32;
        // SAFETY: the address is a whole sockaddr_nl, and its size is given.
        checked(unsafe { libc::bind(fd.as_raw_fd(), (&raw const address).cast(), size_of_val(&address) as _) })?;
        Ok(Netlink { fd, wanted: VecDeque::new(), again: false, whole: true, buffer: vec![0; 1 << 16] })
    }

    /// Asks for all links, then all addresses; `ListEnd` follows them. Says whether that begins now: one survey runs at a time,
    /// and another comes behind it.
    pub fn survey(&mut self) -> io::Result<bool> {
        self.again = !self.wanted.is_empty();
        if self.again {
            return Ok(false);
        }
        self.wanted = [List::Links, List::Addresses].into();
        self.whole = true;
        self.ask().map(|()| true)
    }

    /// Whether a survey is to come behind the one that has ended.
    pub fn wants_survey(&self) -> bool {
        self.again && self.wanted.is_empty()
    }

    /// Asks for the next list: the kernel gives one at a time.
    fn ask(&self) -> io::Result<()> {
        if let Some(list) = self.wanted.front() {
            let request = request(*list as u16);
            // SAFETY: the request is readable for its length.
            let sent = unsafe { libc::send(self.as_raw_fd(), request.as_ptr().cast(), request.len(), 0) };
            if sent < 0 {
                return Err(io::Error::last_os_error());
            }
        }
        Ok(())
    }

    /// The news that are there. It does not wait. `ENOBUFS` says that the kernel had more than it could keep: then a survey helps.
    pub fn receive(&mut self) -> io::Result<Vec<News>> {
        // SAFETY: the buffer is writable for its length.
        let len = unsafe { libc::recv(self.as_raw_fd(), self.buffer.as_mut_ptr().cast(), self.buffer.len(), libc::MSG_DONTWAIT) };
        if len < 0 {
            return Err(io::Error::last_os_error());
        }
        let mut news = vec![];
        for message in messages(&self.buffer[..len as usize]) {
            self.whole &= message.flags & libc::NLM_F_DUMP_INTR as u16 == 0;
            match i32::from(message.kind) {
                libc::NLMSG_ERROR => return Err(refused(message.body)),
                libc::NLMSG_DONE => {
                    self.wanted.pop_front();
                    self.ask()?;
                    if self.wanted.is_empty() {
                        news.push(News::ListEnd { whole: self.whole });
                    }
                }
                _ => news.extend(read(&message)),
            }
        }
        Ok(news)
    }
}

impl AsRawFd for Netlink {
    fn as_raw_fd(&self) -> RawFd {
        self.fd.as_raw_fd()
    }
}

/// A request for a list: the header, and behind it an ifinfomsg or ifaddrmsg with only a family. IPv4 for addresses.
fn request(kind: u16) -> [u8; 32] {
    let mut bytes = [0; 32];
    bytes[0..4].copy_from_slice(&32u32.to_ne_bytes());
    bytes[4..6].copy_from_slice(&kind.to_ne_bytes());
    bytes[6..8].copy_from_slice(&((libc::NLM_F_REQUEST | libc::NLM_F_DUMP) as u16).to_ne_bytes());
    bytes[16] = if kind == libc::RTM_GETADDR { libc::AF_INET as u8 } else { libc::AF_UNSPEC as u8 };
    bytes
}

/// The error that the kernel answers to a request: its number, negated.
fn refused(body: &[u8]) -> io::Error {
    let number = number32(body, 0).map_or(libc::EBADMSG, |number| (number as i32).wrapping_neg());
    io::Error::from_raw_os_error(number)
}

struct Message<'a> {
    kind: u16,
    flags: u16,
    body: &'a [u8],
}

fn number32(bytes: &[u8], at: usize) -> Option<u32> {
    Some(u32::from_ne_bytes(bytes.get(at..at + 4)?.try_into().ok()?))
}

fn number16(bytes: &[u8], at: usize) -> Option<u16> {
    Some(u16::from_ne_bytes(bytes.get(at..at + 2)?.try_into().ok()?))
}

/// The messages in what was received: each begins with its length, its kind and its flags, and is padded to four bytes.
fn messages(mut rest: &[u8]) -> impl Iterator<Item = Message<'_>> {
    std::iter::from_fn(move || {
        let len = number32(rest, 0)? as usize;
        let message = Message { kind: number16(rest, 4)?, flags: number16(rest, 6)?, body: rest.get(16..len)? };
        rest = rest.get(len.next_multiple_of(4)..).unwrap_or(&[]);
        Some(message)
    })
}

/// What a message says, if it is about a link or an address. A bridge's news of its ports has a family, and is not about links.
fn read(message: &Message) -> Option<News> {
    let (body, family) = (message.body, i32::from(*message.body.first()?));
    let index = number32(body, 4)?;
    match message.kind {
        libc::RTM_NEWLINK if family == libc::AF_UNSPEC => {
            let attributes = body.get(16..)?;
            Some(News::Link { index, name: name(attributes), flags: number32(body, 8)?, is_port: is_port(attributes) })
        }
        libc::RTM_DELLINK if family == libc::AF_UNSPEC => Some(News::LinkGone { index }),
        libc::RTM_NEWADDR => {
            let subnet = Subnet { base: far_address(body.get(8..)?)?, prefix: *body.get(1)? };
            Some(News::Address { index, address: address(body.get(8..)?)?, subnet })
        }
        libc::RTM_DELADDR => Some(News::AddressGone { index, address: address(body.get(8..)?)? }),
        _ => None,
    }
}

/// A link's name, which ends in a zero byte.
fn name(attributes: &[u8]) -> String {
    let name = attribute(attributes, libc::IFLA_IFNAME).unwrap_or_default();
    String::from_utf8_lossy(name.strip_suffix(&[0]).unwrap_or(name)).into_owned()
}

/// Whether a link hands its packets on to the link that it is part of. A member of a VRF keeps its packets and its addresses.
fn is_port(attributes: &[u8]) -> bool {
    let info = attribute(attributes, libc::IFLA_LINKINFO).unwrap_or_default();
    attribute(info, libc::IFLA_INFO_SLAVE_KIND).is_some_and(|kind| !kind.starts_with(b"vrf\0"))
}

/// The host's own address among the attributes: on a link between two points the other kind is the far end's.
fn address(attributes: &[u8]) -> Option<Ipv4Addr> {
    ipv4(attributes, libc::IFA_LOCAL).or_else(|| ipv4(attributes, libc::IFA_ADDRESS))
}

/// The address whose prefix is the network's: the far end's, or the host's own.
fn far_address(attributes: &[u8]) -> Option<Ipv4Addr> {
    ipv4(attributes, libc::IFA_ADDRESS).or_else(|| ipv4(attributes, libc::IFA_LOCAL))
}

fn ipv4(attributes: &[u8], kind: u16) -> Option<Ipv4Addr> {
    Some(<[u8; 4]>::try_from(attribute(attributes, kind)?).ok()?.into())
}

fn attribute(mut rest: &[u8], kind: u16) -> Option<&[u8]> {
    loop {
        let len = number16(rest, 0)? as usize;
        let value = rest.get(4..len)?;
        // The two highest bits of a kind are flags.
        if number16(rest, 2)? & 0x3fff == kind {
            return Some(value);
        }
        rest = rest.get(len.next_multiple_of(4)..)?;
    }
}

#[cfg(test)]
mod tests {
    use super::*;

    fn message(kind: u16, body: &[u8]) -> Vec<u8> {
        let len = (16 + body.len()) as u32;
        let mut bytes = [&len.to_ne_bytes()[..], &kind.to_ne_bytes(), &[0; 10], body].concat();
        bytes.resize(bytes.len().next_multiple_of(4), 0);
        bytes
    }

    fn link(family: u8, index: u32, flags: u32) -> Vec<u8> {
        [&[family, 0, 0, 0][..], &index.to_ne_bytes(), &flags.to_ne_bytes(), &[0; 4]].concat()
    }

    fn attribute_of(kind: u16, value: &[u8]) -> Vec<u8> {
        let mut bytes = [&(4 + value.len() as u16).to_ne_bytes()[..], &kind.to_ne_bytes(), value].concat();
        bytes.resize(bytes.len().next_multiple_of(4), 0);
        bytes
    }

    /// News of link 7 with a name, and of what it is a port.
    fn named_link(name: &str, port_of: &[u8]) -> Vec<u8> {
        let name = attribute_of(libc::IFLA_IFNAME, format!("{name}\0").as_bytes());
        let info = attribute_of(libc::IFLA_LINKINFO | 0x8000, &attribute_of(libc::IFLA_INFO_SLAVE_KIND, port_of));
        message(libc::RTM_NEWLINK, &[link(0, 7, 0x1043), name, if port_of.is_empty() { vec![] } else { info }].concat())
    }

    #[test]
    fn names_and_ports() {
        let news = |is_port| News::Link { index: 7, name: "eth0".into(), flags: 0x1043, is_port };
        assert_eq!(read_all(&named_link("eth0", b"")), [news(false)]);
        assert_eq!(read_all(&named_link("eth0", b"bridge\0")), [news(true)]);
        assert_eq!(read_all(&named_link("eth0", b"bond\0")), [news(true)]);
        assert_eq!(read_all(&named_link("eth0", b"vrf\0")), [news(false)]);
    }

    fn read_all(bytes: &[u8]) -> Vec<News> {
        messages(bytes).filter_map(|message| read(&message)).collect()
    }

    #[test]
    fn links_and_addresses() {
        let peer = attribute_of(libc::IFA_ADDRESS, &[10, 0, 0, 2]);
        let own = attribute_of(libc::IFA_LOCAL, &[10, 0, 0, 1]);
        let body = [&[2, 24, 0, 0][..], &7u32.to_ne_bytes(), &peer, &own].concat();
        let bytes = [named_link("eth0", b""), message(libc::RTM_NEWADDR, &body)].concat();
        let link = News::Link { index: 7, name: "eth0".into(), flags: 0x1043, is_port: false };
        let subnet = Subnet { base: [10, 0, 0, 2].into(), prefix: 24 };
        assert_eq!(read_all(&bytes), [link, News::Address { index: 7, address: [10, 0, 0, 1].into(), subnet }]);
    }

    #[test]
    fn a_port_that_leaves_its_bridge_is_no_link_gone() {
        assert_eq!(read_all(&message(libc::RTM_DELLINK, &link(libc::AF_BRIDGE as u8, 7, 0))), []);
        assert_eq!(read_all(&message(libc::RTM_DELLINK, &link(0, 7, 0))), [News::LinkGone { index: 7 }]);
    }

    #[test]
    fn cut_messages_end_the_reading() {
        let bytes = message(libc::RTM_NEWLINK, &link(0, 7, 1));
        for len in 0..bytes.len() {
            assert_eq!(read_all(&bytes[..len]), []);
        }
        assert_eq!(read_all(&[0; 64]), []);
    }

    /// Every machine has a loopback link with an address.
    #[test]
    fn a_survey_of_this_machine() {
        let mut netlink = Netlink::open().unwrap();
        netlink.survey().unwrap();
        let mut seen = vec![];
        while !matches!(seen.last(), Some(News::ListEnd { .. })) {
            match netlink.receive() {
                Ok(news) => seen.extend(news),
                Err(error) => assert_eq!(error.kind(), io::ErrorKind::WouldBlock),
            }
        }
        assert!(seen.iter().any(|news| matches!(news, News::Link { index: 1, .. })), "{seen:?}");
    }
}
