//! What the program prints.
use crate::output::{report_line, say_line};
use kohlsilk::{Answer, Message, Record};
use std::fmt;
use std::sync::OnceLock;

/// A line to standard output.
pub fn say(line: fmt::Arguments) {
    say_line(format!("{line}\n"));
}

/// How much is printed.
#[derive(Clone, Copy, Debug, Default, PartialEq, Eq, PartialOrd, Ord)]
pub enum Level {
    /// What the command line asks for, what fails, and the counts.
    Quiet,
    /// What links and addresses do as well, and refused datagrams up to a limit.
    #[default]
    Normal,
    /// Every refused datagram.
    Verbose,
}

static LEVEL: OnceLock<Level> = OnceLock::new();

/// Sets how much is printed, once.
pub fn set_level(level: Level) {
    let _ = LEVEL.set(level);
}

pub fn level() -> Level {
    LEVEL.get().copied().unwrap_or_default()
}

/// A line to standard output about links and addresses.
pub fn note(line: fmt::Arguments) {
    if level() > Level::Quiet {
        say(line);
    }
}

/// A line to standard error about what is not as it could be, and is no failure.
pub fn remark(line: fmt::Arguments) {
    if level() > Level::Quiet {
        report(line);
    }
}

/// A line to standard error.
pub fn report(line: fmt::Arguments) {
    report_line(format!("kohlsilkd: {line}\n"));
}

/// Bytes of the network or of the command line as text, with control characters written out, so that they cannot act on a terminal.
pub struct Text<'a>(pub &'a [u8]);

impl fmt::Display for Text<'_> {
    fn fmt(&self, f: &mut fmt::Formatter<'_>) -> fmt::Result {
        for c in String::from_utf8_lossy(self.0).chars() {
            match c.is_control() {
                true => write!(f, "{}", c.escape_unicode())?,
                false => write!(f, "{c}")?,
            }
        }
        Ok(())
    }
}

/// The characters that are printed of a text that a stranger has sent, at most: lines that nobody reads yet take memory.
const LONGEST: usize = 500;

/// A stranger's text, cut where it is too long.
fn short(text: &str) -> String {
    let end = text.char_indices().nth(LONGEST).map(|(end, _)| end);
    format!("{}{}", Text(&text.as_bytes()[..end.unwrap_or(text.len())]), if end.is_some() { ".." } else { "" })
}

/// A notification: what is there or has gone, its type, its name and where its description is.
pub fn notification(message: &Message) -> Option<String> {
    match *message {
        Message::NotifyAlive { notification_type: service_type, unique_service_name, location }
        | Message::Response { search_target: service_type, unique_service_name, location } => {
            Some(format!("there {} {} {}", short(service_type), short(unique_service_name), short(location)))
        }
        Message::NotifyByeBye { notification_type, unique_service_name } => {
            Some(format!("gone {} {}", short(notification_type), short(unique_service_name)))
        }
        Message::Search { .. } => None,
    }
}

/// A record in one line: source, destination, port, and the message in hexadecimal.
pub fn record(record: &Record) -> String {
    let message: String = record.message.iter().map(|byte| format!("{byte:02x}")).collect();
    format!("record {} {} {} {message}", record.source, record.destination.ip(), record.destination.port())
}

/// The reply ledger: five sums over all answers, and the waiting of the latest.
#[derive(Clone, Copy, Default)]
pub struct Counts {
    pub matched: usize,
    pub joined: usize,
    pub alone: usize,
    pub group: usize,
    pub dropped: usize,
    pub waiting: usize,
}

impl Counts {
    pub fn add(&mut self, answer: &Answer) {
        self.matched += answer.matched;
        self.joined += answer.joined;
        self.alone += answer.alone;
        self.group += answer.group;
        self.dropped += answer.dropped;
        self.waiting = answer.waiting;
    }

    /// Each count with its name.
    pub fn named(&self) -> [(&'static str, usize); 6] {
        let Counts { matched, joined, alone, group, dropped, waiting } = *self;
        [("matched", matched), ("joined", joined), ("alone", alone), ("group", group), ("dropped", dropped), ("waiting", waiting)]
    }
}

impl fmt::Display for Counts {
    fn fmt(&self, f: &mut fmt::Formatter<'_>) -> fmt::Result {
        let named = self.named().map(|(name, count)| format!("{name} {count}"));
        write!(f, "{}", named.join(", "))
    }
}

#[cfg(test)]
mod tests {
    use super::*;

    #[test]
    fn control_characters_are_written_out() {
        assert_eq!(Text("caf\u{e9}\u{1b}[2J\u{9b}".as_bytes()).to_string(), "caf\u{e9}\\u{1b}[2J\\u{9b}");
        assert_eq!(Text(b"a\xff").to_string(), "a\u{fffd}");
    }

    #[test]
    fn a_long_text_is_cut() {
        let long = "\u{e9}".repeat(LONGEST);
        assert_eq!(short(&long), long);
        assert_eq!(short(&format!("{long}a")), format!("{long}.."));
        let gone = Message::NotifyByeBye { notification_type: "t", unique_service_name: &"u".repeat(60_000) };
        assert_eq!(notification(&gone).unwrap().len(), "gone t ..".len() + LONGEST);
    }

    #[test]
    fn a_record_in_hexadecimal() {
        let line = record(&Record { destination: kohlsilk::GROUP, source: [10, 0, 0, 1].into(), message: b"N\x0a" });
        assert_eq!(line, "record 10.0.0.1 239.255.255.250 1900 4e0a");
    }
}
