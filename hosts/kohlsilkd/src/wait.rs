//! Waiting for descriptors, for an instant, and for signals.
use crate::socket::checked;
use std::io;
use std::mem::{size_of, MaybeUninit};
use std::os::fd::{AsRawFd, FromRawFd, OwnedFd, RawFd};

/// Waits until one of the descriptors can be read, or written where that is asked for (`true`), at most so many milliseconds, and says which can.
pub fn wait(descriptors: &[(RawFd, bool)], milliseconds: u64) -> io::Result<Vec<bool>> {
    let events = |writes| if writes { libc::POLLOUT } else { libc::POLLIN };
    let mut polled: Vec<_> = descriptors.iter().map(|(fd, writes)| libc::pollfd { fd: *fd, events: events(*writes), revents: 0 }).collect();
    let milliseconds = milliseconds.min(i32::MAX as u64) as i32;
    // SAFETY: the array is writable for its length.
    match checked(unsafe { libc::poll(polled.as_mut_ptr(), polled.len() as _, milliseconds) }) {
        Err(error) if error.kind() != io::ErrorKind::Interrupted => Err(error),
        _ => Ok(polled.iter().map(|polled| polled.revents != 0).collect()),
    }
}

/// A descriptor that can be read once one of these signals has come. They no longer end the program by themselves.
pub struct Signals(OwnedFd);

const SIGNALS: [i32; 4] = [libc::SIGINT, libc::SIGTERM, libc::SIGHUP, libc::SIGUSR1];

impl Signals {
    pub fn open() -> io::Result<Signals> {
        let mut set = MaybeUninit::uninit();
        // SAFETY: sigemptyset fills the set before the others read it.
        let fd = unsafe {
            libc::sigemptyset(set.as_mut_ptr());
            for signal in SIGNALS {
                libc::sigaddset(set.as_mut_ptr(), signal);
            }
            checked(libc::sigprocmask(libc::SIG_BLOCK, set.as_ptr(), std::ptr::null_mut()))?;
            checked(libc::signalfd(-1, set.as_ptr(), libc::SFD_CLOEXEC | libc::SFD_NONBLOCK))?
        };
        // SAFETY: `fd` was opened just now and nobody else has it.
        Ok(Signals(unsafe { OwnedFd::from_raw_fd(fd) }))
    }

    /// The next signal that has come, if any.
    pub fn next(&self) -> Option<i32> {
        let mut info = MaybeUninit::<libc::signalfd_siginfo>::zeroed();
        // SAFETY: `info` is writable for its size.
        let len = unsafe { libc::read(self.as_raw_fd(), info.as_mut_ptr().cast(), size_of::<libc::signalfd_siginfo>()) };
        // SAFETY: a signalfd_siginfo is numbers, for which zeros are values.
        let info = unsafe { info.assume_init() };
        (len > 0).then_some(info.ssi_signo as i32)
    }
}

impl AsRawFd for Signals {
    fn as_raw_fd(&self) -> RawFd {
        self.0.as_raw_fd()
    }
}
