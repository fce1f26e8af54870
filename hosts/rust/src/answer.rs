//! What an accepted call answers.
use crate::abi::RawAnswer;
use crate::record::Records;
use crate::refusal::Refusal;

/// The answer of an accepted call. `matched` to `dropped` are what the call adds to the reply ledger, in which
/// matched = joined + alone + group + dropped + waiting at all times.
#[derive(Clone, Copy, Debug, PartialEq, Eq)]
pub struct Answer {
    /// How many records the call wrote to the outbox, at most [`RECORDS`](crate::RECORDS). The host sends them: [`Answer::records_in`].
    pub records: usize,
    /// Names that a search matched.
    pub matched: usize,
    /// Those of them for which a reply waited already.
    pub joined: usize,
    /// Replies sent to their searcher alone.
    pub alone: usize,
    /// Replies sent to the group, since more than one had asked.
    pub group: usize,
    /// Replies that went with their name.
    pub dropped: usize,
    /// Replies that wait after the call.
    pub waiting: usize,
    /// The instant at which [`Engine::handle_timeout`](crate::Engine::handle_timeout) is to be called.
    pub poll: u64,
    /// Bit k is set when the datagram concerns subscription k: [`Answer::subscriptions`].
    pub mask: u32,
    /// The number of those bits.
    pub told: u32,
    /// The outcome handed in with the deletion of a link that was held.
    pub leave: u32,
}

impl Answer {
    /// The answer, unless it is a refusal.
    pub(crate) fn of(held: &RawAnswer) -> Result<Answer, Refusal> {
        Refusal::check(held.refusal)?;
        Ok(Answer {
            records: held.records,
            matched: held.matched,
            joined: held.joined,
            alone: held.alone,
            group: held.group,
            dropped: held.dropped,
            waiting: held.waiting,
            poll: held.poll,
            mask: held.mask,
            told: held.told,
            leave: held.leave,
        })
    }

    /// The records of this call in the outbox that was lent to it.
    pub fn records_in<'a>(&self, outbox: &'a [u8]) -> Records<'a> {
        Records::new(outbox, self.records)
    }

    /// The subscriptions that the datagram concerns, counted from 0 in the order in which they were made.
    pub fn subscriptions(&self) -> impl Iterator<Item = usize> {
        let mask = self.mask;
        (0..32).filter(move |k| mask >> k & 1 == 1)
    }
}
