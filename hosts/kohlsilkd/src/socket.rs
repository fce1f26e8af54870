//! UDP sockets that say at which of the host's addresses a datagram came in, and send from the address that a record names.
use kohlsilk::{Record, GROUP};
use std::io;
use std::mem::{size_of, size_of_val, zeroed};
use std::net::{Ipv4Addr, SocketAddrV4};
use std::os::fd::{AsRawFd, FromRawFd, OwnedFd, RawFd};

pub struct Socket(OwnedFd);

/// A datagram's length, where it came from, the host's address that it reached, and the link that it came by.
pub struct Received {
    pub len: usize,
    pub sender: SocketAddrV4,
    pub receiver: Ipv4Addr,
    pub link: u32,
}

/// What is asked of the kernel for datagrams that have come and are not yet read: thousands of searches. It takes twice as much, for its own
/// records of them.
const RECEIVE_BUFFER: i32 = 4 << 20;

/// And for records that are not yet sent: a few hundred, more than the kernel keeps for one address that it looks for. A reply that waits
/// behind more of them would come too late.
const SEND_BUFFER: i32 = 256 << 10;

/// Room for one control message with packet information, aligned as the kernel wants it.
#[repr(C, align(8))]
struct Control([u8; 64]);

impl Socket {
    /// A socket on a port, or on one that the kernel chooses for 0. Others on this machine may share the port, as discovery needs.
    pub fn bound(port: u16, ttl: u8) -> io::Result<Socket> {
        // SAFETY: no memory is passed; the descriptor is owned from here on.
        let fd = checked(unsafe { libc::socket(libc::AF_INET, libc::SOCK_DGRAM | libc::SOCK_CLOEXEC, 0) })?;
        // SAFETY: `fd` was opened just now and nobody else has it.
        let socket = Socket(unsafe { OwnedFd::from_raw_fd(fd) });
        socket.set(libc::SOL_SOCKET, libc::SO_REUSEADDR, &1i32)?;
        socket.set(libc::IPPROTO_IP, libc::IP_PKTINFO, &1i32)?;
        socket.set(libc::IPPROTO_IP, libc::IP_MULTICAST_TTL, &i32::from(ttl))?;
        // Only groups that this socket joined, on the links where it did: not what other programs have joined.
        socket.set(libc::IPPROTO_IP, libc::IP_MULTICAST_ALL, &0i32)?;
        // Without this the kernel says that a record was sent although the queue of the link has dropped it.
        socket.set(libc::IPPROTO_IP, libc::IP_RECVERR, &1i32)?;
        socket.enlarge();
        let address = raw_address(SocketAddrV4::new(Ipv4Addr::UNSPECIFIED, port));
        // SAFETY: the address is a whole sockaddr_in, and its size is given.
        checked(unsafe { libc::bind(fd, (&raw const address).cast(), size_of_val(&address) as _) })?;
        Ok(socket)
    }

    /// The port that it is bound to.
    pub fn port(&self) -> io::Result<u16> {
        let mut address = raw_address(SocketAddrV4::new(Ipv4Addr::UNSPECIFIED, 0));
        let mut len = size_of_val(&address) as libc::socklen_t;
        // SAFETY: `address` is writable for `len` bytes.
        checked(unsafe { libc::getsockname(self.as_raw_fd(), (&raw mut address).cast(), &mut len) })?;
        Ok(u16::from_be(address.sin_port))
    }

    pub fn join(&self, index: u32) -> io::Result<()> {
        self.set(libc::IPPROTO_IP, libc::IP_ADD_MEMBERSHIP, &membership(index))
    }

    pub fn leave(&self, index: u32) -> io::Result<()> {
        self.set(libc::IPPROTO_IP, libc::IP_DROP_MEMBERSHIP, &membership(index))
    }

    /// Asks for larger buffers, beyond the system's limit (net.core.rmem_max) where that is allowed. With less the program works too.
    fn enlarge(&self) {
        if self.set(libc::SOL_SOCKET, libc::SO_RCVBUFFORCE, &RECEIVE_BUFFER).is_err() {
            let _ = self.set(libc::SOL_SOCKET, libc::SO_RCVBUF, &RECEIVE_BUFFER);
        }
        let _ = self.set(libc::SOL_SOCKET, libc::SO_SNDBUF, &SEND_BUFFER);
    }

    /// How many datagrams the kernel has dropped because the receive buffer was full. It is the count of SO_RXQ_OVFL, which comes only with
    /// the next datagram that is read: asked for here, it is right at any time.
    pub fn dropped(&self) -> u32 {
        let mut info = [0u32; libc::SK_MEMINFO_DROPS as usize + 1];
        let mut len = size_of_val(&info) as libc::socklen_t;
        // SAFETY: `info` is writable for `len` bytes.
        unsafe { libc::getsockopt(self.as_raw_fd(), libc::SOL_SOCKET, libc::SO_MEMINFO, info.as_mut_ptr().cast(), &mut len) };
        info[libc::SK_MEMINFO_DROPS as usize]
    }

    fn set<T>(&self, level: i32, option: i32, value: &T) -> io::Result<()> {
        // SAFETY: `value` is readable for its size.
        checked(unsafe { libc::setsockopt(self.as_raw_fd(), level, option, (value as *const T).cast(), size_of::<T>() as _) })?;
        Ok(())
    }

    /// The next datagram, if one is there. It does not wait.
    pub fn receive(&self, buffer: &mut [u8]) -> io::Result<Received> {
        let mut sender = raw_address(SocketAddrV4::new(Ipv4Addr::UNSPECIFIED, 0));
        let mut control = Control([0; 64]);
        let mut part = libc::iovec { iov_base: buffer.as_mut_ptr().cast(), iov_len: buffer.len() };
        let mut message = message(&mut sender, &mut part, &mut control);
        // SAFETY: the message names three places above, each writable for the length given beside it.
        let len = unsafe { libc::recvmsg(self.as_raw_fd(), &mut message, libc::MSG_DONTWAIT) };
        if len < 0 {
            return Err(io::Error::last_os_error());
        }
        let (receiver, link) = packet_info(&message).ok_or(io::ErrorKind::InvalidData)?;
        let address = Ipv4Addr::from(u32::from_be(sender.sin_addr.s_addr));
        Ok(Received { len: len as usize, sender: SocketAddrV4::new(address, u16::from_be(sender.sin_port)), receiver, link })
    }

    /// Forgets what the network has sent back, as that a searcher's port is closed: until then it would be the answer to the next call.
    pub fn forget_errors(&self) {
        let mut byte = [0u8; 1];
        // SAFETY: `byte` is writable for its length.
        while unsafe { libc::recv(self.as_raw_fd(), byte.as_mut_ptr().cast(), 1, libc::MSG_ERRQUEUE | libc::MSG_DONTWAIT) } >= 0 {}
    }

    /// Sends a record from its source. `link` is the one that it goes out on, or 0 for the one that the routes give. It does not wait: where the
    /// kernel has no room for it, because a queue is full or an address is being looked for, it is not sent.
    pub fn send(&self, record: &Record, link: u32) -> io::Result<()> {
        match self.try_send(record, link) {
            Err(error) if !is_full(&error) => {
                self.forget_errors();
                self.try_send(record, link)
            }
            sent => sent,
        }
    }

    fn try_send(&self, record: &Record, link: u32) -> io::Result<()> {
        let mut destination = raw_address(record.destination);
        let mut control = Control([0; 64]);
        let mut part = libc::iovec { iov_base: record.message.as_ptr().cast_mut().cast(), iov_len: record.message.len() };
        let mut message = message(&mut destination, &mut part, &mut control);
        let info = libc::in_pktinfo {
            ipi_ifindex: link as i32,
            ipi_spec_dst: libc::in_addr { s_addr: u32::from(record.source).to_be() },
            ipi_addr: libc::in_addr { s_addr: 0 },
        };
        // SAFETY: the control room is aligned and larger than one header with packet information; sendmsg only reads.
        let sent = unsafe {
            let header = libc::CMSG_FIRSTHDR(&message);
            (*header).cmsg_level = libc::IPPROTO_IP;
            (*header).cmsg_type = libc::IP_PKTINFO;
            (*header).cmsg_len = libc::CMSG_LEN(size_of_val(&info) as u32) as _;
            libc::CMSG_DATA(header).cast::<libc::in_pktinfo>().write_unaligned(info);
            message.msg_controllen = libc::CMSG_SPACE(size_of_val(&info) as u32) as _;
            libc::sendmsg(self.as_raw_fd(), &message, libc::MSG_DONTWAIT)
        };
        if sent < 0 {
            return Err(io::Error::last_os_error());
        }
        Ok(())
    }
}

impl AsRawFd for Socket {
    fn as_raw_fd(&self) -> RawFd {
        self.0.as_raw_fd()
    }
}

/// The address that a reply is expected from (for a datagram to the group, that of the link which it came by), and the link.
fn packet_info(message: &libc::msghdr) -> Option<(Ipv4Addr, u32)> {
    // SAFETY: recvmsg has filled the control room, and the macros stay within its length.
    unsafe {
        let mut header = libc::CMSG_FIRSTHDR(message);
        while !header.is_null() {
            if (*header).cmsg_level == libc::IPPROTO_IP && (*header).cmsg_type == libc::IP_PKTINFO {
                let info = libc::CMSG_DATA(header).cast::<libc::in_pktinfo>().read_unaligned();
                return Some((Ipv4Addr::from(u32::from_be(info.ipi_spec_dst.s_addr)), info.ipi_ifindex as u32));
            }
            header = libc::CMSG_NXTHDR(message, header);
        }
    }
    None
}

fn message(address: &mut libc::sockaddr_in, part: &mut libc::iovec, control: &mut Control) -> libc::msghdr {
    // SAFETY: a msghdr is numbers and pointers, for which zeros are values.
    let mut message: libc::msghdr = unsafe { zeroed() };
    message.msg_name = (address as *mut libc::sockaddr_in).cast();
    message.msg_namelen = size_of::<libc::sockaddr_in>() as _;
    message.msg_iov = part;
    message.msg_iovlen = 1;
    message.msg_control = control.0.as_mut_ptr().cast();
    message.msg_controllen = control.0.len() as _;
    message
}

fn raw_address(address: SocketAddrV4) -> libc::sockaddr_in {
    libc::sockaddr_in {
        sin_family: libc::AF_INET as _,
        sin_port: address.port().to_be(),
        sin_addr: libc::in_addr { s_addr: u32::from(*address.ip()).to_be() },
        sin_zero: [0; 8],
    }
}

fn membership(index: u32) -> libc::ip_mreqn {
    libc::ip_mreqn {
        imr_multiaddr: libc::in_addr { s_addr: u32::from(*GROUP.ip()).to_be() },
        imr_address: libc::in_addr { s_addr: 0 },
        imr_ifindex: index as i32,
    }
}

/// Whether an error of sending says that there is no room at present.
pub fn is_full(error: &io::Error) -> bool {
    error.kind() == io::ErrorKind::WouldBlock || error.raw_os_error() == Some(libc::ENOBUFS)
}

/// The result of a system call, or its error.
pub fn checked(result: i32) -> io::Result<i32> {
    if result < 0 {
        return Err(io::Error::last_os_error());
    }
    Ok(result)
}

#[cfg(test)]
mod tests {
    use super::*;

    /// A datagram within this machine: it comes from the source that the record names and at the address that it was sent to.
    #[test]
    fn source_and_receiver() {
        let socket = Socket::bound(0, 4).unwrap();
        let other = std::net::UdpSocket::bind("127.0.0.3:0").unwrap();
        let std::net::SocketAddr::V4(destination) = other.local_addr().unwrap() else { panic!("not IPv4") };
        let source = Ipv4Addr::new(127, 0, 0, 2);
        socket.send(&Record { destination, source, message: b"ask" }, 0).unwrap();
        let mut buffer = [0; 16];
        let (len, from) = other.recv_from(&mut buffer).unwrap();
        assert_eq!((&buffer[..len], from.ip()), (&b"ask"[..], source.into()));
        other.send_to(b"answer", from).unwrap();
        let received = socket.receive(&mut buffer).unwrap();
        assert_eq!(&buffer[..received.len], b"answer");
        assert_eq!((received.sender, received.receiver), (destination, source));
        assert_eq!(socket.receive(&mut buffer).err().unwrap().kind(), io::ErrorKind::WouldBlock);
    }

    /// More datagrams than the buffer holds: each is read or counted.
    #[test]
    fn what_is_not_read_is_counted() {
        let socket = Socket::bound(0, 4).unwrap();
        socket.set(libc::SOL_SOCKET, libc::SO_RCVBUF, &4096i32).unwrap();
        let other = std::net::UdpSocket::bind("127.0.0.1:0").unwrap();
        for _ in 0..100 {
            other.send_to(b"search", ("127.0.0.1", socket.port().unwrap())).unwrap();
        }
        let mut heard = 0;
        while socket.receive(&mut [0; 16]).is_ok() {
            heard += 1;
        }
        assert!(heard < 100);
        assert_eq!(heard + socket.dropped(), 100);
    }

    /// A closed port sends an error back. It is not the answer to the next record, which is sent.
    #[test]
    fn an_error_of_one_record_is_not_the_next_ones() {
        let socket = Socket::bound(0, 4).unwrap();
        let address = |other: &std::net::UdpSocket| SocketAddrV4::new(Ipv4Addr::LOCALHOST, other.local_addr().unwrap().port());
        let closed = address(&std::net::UdpSocket::bind("127.0.0.1:0").unwrap());
        let open = std::net::UdpSocket::bind("127.0.0.1:0").unwrap();
        open.set_nonblocking(true).unwrap();
        for destination in [closed, closed, address(&open)] {
            socket.send(&Record { destination, source: Ipv4Addr::LOCALHOST, message: b"reply" }, 0).unwrap();
        }
        assert_eq!(open.recv(&mut [0; 16]).unwrap(), 5);
        assert_eq!(socket.receive(&mut [0; 16]).err().unwrap().kind(), io::ErrorKind::WouldBlock);
    }
}
