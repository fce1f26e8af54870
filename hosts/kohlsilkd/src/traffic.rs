//! What is counted of each link, below the engine's ledger.
use std::fmt;

#[derive(Clone, Copy, Debug, Default, PartialEq, Eq)]
pub struct Traffic {
    /// Datagrams that were read, of whatever kind, our own notices among them.
    pub heard: u64,
    /// Datagrams that the kernel dropped before they were read, since the buffer was full.
    pub dropped: u64,
    /// Searches from addresses off the link, which are not answered.
    pub off_link: u64,
    /// Records that the kernel has taken.
    pub sent: u64,
    /// Records that it has not taken: the link's queue was full, or it could not send at all.
    pub not_sent: u64,
}

impl Traffic {
    pub fn add(&mut self, other: &Traffic) {
        self.heard += other.heard;
        self.dropped += other.dropped;
        self.off_link += other.off_link;
        self.sent += other.sent;
        self.not_sent += other.not_sent;
    }
}

impl fmt::Display for Traffic {
    fn fmt(&self, f: &mut fmt::Formatter<'_>) -> fmt::Result {
        let Traffic { heard, dropped, off_link, sent, not_sent } = self;
        write!(f, "heard {heard}, dropped unheard {dropped}, off the link {off_link}, records sent {sent}, records not sent {not_sent}")
    }
}
