//! The judge of whole lists of calls: the Rust engine (the reference) says what is sent, who is told and when to wake;
//! the text of documents 01 and 02, written apart in `document`, says what is refused and what the ledger counts. Where
//! both speak they are held against each other at every call, and document 02's count of records against those sent.
pub mod call;
mod cotton;
mod document;
mod front;
pub mod messages;
pub mod refusal;
pub mod text;

pub use cotton::Milliseconds;
pub use document::{ADDRESSES, LINKS, LOCATION_SIZE, MAX_TIME, NAMES, NAME_SIZE, RECORD, SUBSCRIPTIONS, TYPE_SIZE};
pub use front::{bare, read, Front, Line, Program, OUTBOX};

use call::{Answer, Call};
use cotton::Cotton;
use document::Document;

/// An engine of the document and one of the Rust under the same calls.
pub struct Judge {
    document: Document,
    cotton: Cotton,
    pub partings: Vec<String>,
}

impl Judge {
    pub fn new(seed: u32, now: u64) -> (Self, Answer) {
        let (document, answer) = Document::new(seed, now);
        let cotton = Cotton::new(seed, document.poll());
        (Self { document, cotton, partings: vec![] }, answer)
    }

    pub fn poll(&self) -> u64 {
        self.document.poll()
    }

    /// The length of outbox under which the call is refused by 2, if by nothing else.
    pub fn need(&self, call: &Call) -> usize {
        RECORD * self.document.need(call)
    }

    pub fn call(&mut self, call: &Call, lent: usize) -> Answer {
        let need = self.need(call);
        let mut answer = self.document.call(call, lent);
        if answer.refusal != 0 {
            return answer;
        }
        let shown = self.cotton.call(call);
        let left = shown.failed.is_err();
        let same = [
            ("records", shown.records == answer.records),
            ("the count of records", RECORD * shown.records.len() == need),
            ("mask", shown.mask == answer.mask && shown.told == answer.told),
            ("leave", left == (answer.leave != 0)),
            ("poll", shown.poll == answer.poll),
        ];
        for (what, _) in same.iter().filter(|(_, same)| !same) {
            self.partings.push(format!("{what} of {call:?}"));
        }
        answer.records = shown.records;
        answer.mask = shown.mask;
        answer.told = shown.told;
        answer.poll = shown.poll;
        answer
    }
}
