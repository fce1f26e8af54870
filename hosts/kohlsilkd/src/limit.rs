//! A limit for lines of one kind, so that what others send cannot fill a disk.
use std::collections::BTreeMap;
use std::fmt;

/// As many lines of a kind are printed in a window of so many milliseconds. The others are counted.
const LINES: u64 = 5;
const WINDOW: u64 = 60_000;

/// The kinds of lines that others can cause.
#[derive(Clone, Copy, Debug, PartialEq, Eq, PartialOrd, Ord)]
pub enum Kind {
    /// A datagram that the engine refused by this number.
    Refused(u32),
    NotSent,
    NotReceived,
}

impl fmt::Display for Kind {
    fn fmt(&self, f: &mut fmt::Formatter<'_>) -> fmt::Result {
        match self {
            Kind::Refused(number) => write!(f, "datagrams refused by number {number}"),
            Kind::NotSent => write!(f, "records that could not be sent"),
            Kind::NotReceived => write!(f, "errors of receiving"),
        }
    }
}

#[derive(Default)]
pub struct Limits(BTreeMap<Kind, Window>);

struct Window {
    begun: u64,
    lines: u64,
}

impl Limits {
    /// Whether a line of this kind is printed; it is counted if not.
    pub fn admits(&mut self, kind: Kind, now: u64) -> bool {
        let window = self.0.entry(kind).or_insert(Window { begun: now, lines: 0 });
        window.lines += 1;
        window.lines <= LINES
    }

    /// The windows that have ended, and how many lines of each kind were not printed. The next line of a kind begins a new one.
    pub fn ended(&mut self, now: u64) -> Vec<(Kind, u64)> {
        let mut more = vec![];
        self.0.retain(|kind, window| {
            let is_open = now < window.begun.saturating_add(WINDOW);
            if !is_open && window.lines > LINES {
                more.push((*kind, window.lines - LINES));
            }
            is_open
        });
        more
    }
}

#[cfg(test)]
mod tests {
    use super::*;

    #[test]
    fn each_kind_has_its_own_limit() {
        let mut limits = Limits::default();
        let printed = |limits: &mut Limits, kind, now| (0..100).filter(|_| limits.admits(kind, now)).count() as u64;
        assert_eq!(printed(&mut limits, Kind::Refused(8), 7), LINES);
        assert_eq!(printed(&mut limits, Kind::Refused(9), 8), LINES);
        assert!(limits.admits(Kind::NotSent, 7));
        assert_eq!(limits.ended(WINDOW + 6), []);
        assert_eq!(limits.ended(WINDOW + 7), [(Kind::Refused(8), 100 - LINES)]);
        assert_eq!(printed(&mut limits, Kind::Refused(8), WINDOW + 8), LINES);
        assert_eq!(limits.ended(u64::MAX), [(Kind::Refused(8), 100 - LINES), (Kind::Refused(9), 100 - LINES)]);
    }
}
