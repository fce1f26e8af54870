// Shim for udp/error.rs, which the sources name and do not have: the engine only hands these values on.

/// What a host's socket answers when it fails.
#[derive(Debug, Clone, Copy, PartialEq, Eq)]
pub enum Error {
    /// A system call failed with this outcome
    Syscall(Syscall, u32),
}

/// The system calls that the engine asks for.
#[derive(Debug, Clone, Copy, PartialEq, Eq)]
pub enum Syscall {
    JoinMulticast,
    LeaveMulticast,
}
