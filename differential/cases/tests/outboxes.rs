//! The lists of `outboxes` are what they say: their counts of records are the judge's, and each call that sends comes in every length of outbox.
use judge::{Front, Program, OUTBOX, RECORD};
use std::collections::BTreeSet;

const SENDING: [&str; 7] = ["addr", "advertise", "deadvertise", "link", "refresh", "subscribe", "timeout"];

/// Which calls came with one byte less than they need, with exactly enough, with more, and with none where they need none.
#[derive(Default)]
struct Lengths {
    less: BTreeSet<String>,
    exact: BTreeSet<String>,
    more: BTreeSet<String>,
    none: BTreeSet<String>,
}

impl Lengths {
    /// An outbox of one byte less than a multiple of 524 is refused; any other holds as many records as it has room for.
    fn call(&mut self, line: &str, lent: usize, answer: &str) {
        let fields: Vec<&str> = answer.lines().next().unwrap().split('\t').collect();
        let (refusal, records) = (fields[0], fields[1].parse().unwrap());
        if lent == OUTBOX {
            return assert_eq!(refusal, "0", "{line}");
        }
        let (words, expected) = match lent % RECORD {
            0 if lent == 0 && refusal != "0" => return,
            0 if lent == 0 => (&mut self.none, ("0", 0)),
            0 => (&mut self.exact, ("0", lent / RECORD)),
            523 => (&mut self.less, ("2", 0)),
            _ => (&mut self.more, ("0", lent / RECORD)),
        };
        assert_eq!((refusal, records), expected, "{line} with {lent}");
        words.insert(line.split('\t').next().unwrap().into());
    }
}

#[test]
fn every_call_that_sends_in_every_length() {
    let mut lengths = Lengths::default();
    for list in cases::outboxes::all() {
        let mut front = Front::new(Program::Trace);
        let mut lent = OUTBOX;
        for line in list.lines() {
            let answer = front.line(line.as_bytes());
            match line.strip_prefix("outbox\t") {
                Some(bytes) => lent = bytes.parse().unwrap(),
                None => lengths.call(line, lent, &answer),
            }
        }
        assert_eq!(front.judge.unwrap().partings, Vec::<String>::new());
    }
    for words in [&lengths.less, &lengths.exact] {
        assert_eq!(Vec::from_iter(words), SENDING);
    }
    for words in [&lengths.more, &lengths.none] {
        assert!(SENDING.iter().all(|word| words.contains(*word)), "{words:?}");
    }
}
