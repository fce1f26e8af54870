//! The engine and its calls.
use crate::abi::{self, EngineArrays, RawAnswer};
use crate::answer::Answer;
use crate::name::Name;
use crate::refusal::Refusal;
use core::fmt;
use core::net::{Ipv4Addr, SocketAddrV4};

/// The engine: up to [`NAMES`](crate::NAMES) advertisements, [`SUBSCRIPTIONS`](crate::SUBSCRIPTIONS), [`LINKS`](crate::LINKS) with
/// [`ADDRESSES`](crate::ADDRESSES) each, and the replies that wait. It takes about 4 KB, holds no pointer and allocates nothing.
///
/// Times are milliseconds from any start. A refused call changes nothing.
///
/// # The outbox
///
/// What a call sends it writes to bytes that the host lends, [`RECORD_SIZE`](crate::RECORD_SIZE) of them for each record. An outbox that is too
/// short for the records of this very call is refused by number 2, where nothing else refuses the call; bytes behind the last record keep their
/// values. [`OUTBOX_SIZE`](crate::OUTBOX_SIZE) bytes are enough for every call on any engine. A host with less memory asks how many bytes a call needs right
/// before it, by the function of the same name with `_need`; the answer is good until the next call.
///
/// ```
/// use kohlsilk::{flags, Engine, Refusal, RECORD_SIZE};
///
/// let mut engine = Engine::new(0, 0)?;
/// // Nothing is announced yet and nothing searched for: news of the network sends nothing.
/// engine.new_link(1, flags::UP | flags::RUNNING | flags::MULTICAST, 0, &mut [])?;
/// engine.new_address(1, &[10, 0, 0, 1], &mut [])?;
///
/// // One name from one address is one record.
/// let mut outbox = [0; RECORD_SIZE];
/// assert_eq!(engine.advertise_need(), outbox.len());
/// assert_eq!(engine.advertise("u1", "t:1", "http://h/d", &mut []), Err(Refusal::OUTBOX_SHORT));
/// assert_eq!(engine.advertise("u1", "t:1", "http://h/d", &mut outbox)?.records, 1);
///
/// // A second address doubles what the next refresh needs.
/// assert_eq!(engine.new_address_need(1, &[10, 0, 0, 2]), RECORD_SIZE);
/// engine.new_address(1, &[10, 0, 0, 2], &mut outbox)?;
/// assert_eq!(engine.handle_timeout_need(engine.poll()), 2 * RECORD_SIZE);
/// # Ok::<(), Refusal>(())
/// ```
#[derive(Clone)]
pub struct Engine {
    arrays: EngineArrays,
    waiting: usize,
    poll: u64,
}

impl Engine {
    /// An engine whose first refresh is due at `time`. The seed spreads delays: take a random one. A reply is due `random_seed` modulo
    /// min(1000·MX, 5000) milliseconds behind its search, inside the window in which the searcher listens. Where the time is refused there
    /// is an engine all the same, which begins at time 0: the error holds it.
    // The error is as large as the engine, since nothing is allocated here.
    #[allow(clippy::result_large_err)]
    pub fn new(random_seed: u32, time: u64) -> Result<Engine, RefusedStart> {
        let mut engine = Engine { arrays: EngineArrays::BLANK, waiting: 0, poll: 0 };
        let answer = abi::new(&mut engine.arrays, random_seed, time);
        match engine.noted(answer) {
            Ok(_) => Ok(engine),
            Err(refusal) => Err(RefusedStart { engine, refusal }),
        }
    }

    /// The replies that wait.
    pub fn waiting(&self) -> usize {
        self.waiting
    }

    /// The instant at which [`Engine::handle_timeout`] is to be called, as the latest answer has it. A reply may be due at the very time of its
    /// search: an instant that is not later than now is to be served at once.
    pub fn poll(&self) -> u64 {
        self.poll
    }

    /// The names that are advertised, in the engine's order, each with the reply that waits for it. To be read at any time.
    pub fn names(&self) -> impl Iterator<Item = Name<'_>> {
        self.arrays.name_rows().map(|(numbers, texts)| Name::read(numbers, texts))
    }

    /// A link is there, or has turned up or down (its flags: [`flags`](crate::flags)). For one that is new the host first joins the group on it, and
    /// hands in 0 or the error's number as the outcome. A link without `MULTICAST` is passed over.
    pub fn new_link(&mut self, index: u32, flags: u32, outcome: u32, outbox: &mut [u8]) -> Result<Answer, Refusal> {
        let answer = abi::new_link(&mut self.arrays, index, flags, outcome, outbox);
        self.noted(answer)
    }

    /// A link has gone, with the outcome of leaving the group on it, which is answered if the link was held.
    pub fn deleted_link(&mut self, index: u32, outcome: u32) -> Result<Answer, Refusal> {
        let answer = abi::deleted_link(&mut self.arrays, index, outcome);
        self.noted(answer)
    }

    /// An address is on a link. One of 16 bytes (IPv6) is passed over.
    pub fn new_address(&mut self, index: u32, address: &[u8], outbox: &mut [u8]) -> Result<Answer, Refusal> {
        let answer = abi::new_address(&mut self.arrays, index, address, outbox);
        self.noted(answer)
    }

    /// An address has gone from a link.
    pub fn deleted_address(&mut self, index: u32, address: &[u8]) -> Result<Answer, Refusal> {
        let answer = abi::deleted_address(&mut self.arrays, index, address);
        self.noted(answer)
    }

    /// Searches for a type, now and at each refresh. Answers of later datagrams name it by its number, counted from 0.
    pub fn subscribe(&mut self, service_type: impl AsRef<[u8]>, outbox: &mut [u8]) -> Result<Answer, Refusal> {
        let answer = abi::subscribe(&mut self.arrays, service_type.as_ref(), outbox);
        self.noted(answer)
    }

    /// Announces a service under a name (its USN), now and at each refresh; a name that is held is replaced. The host part of
    /// the location becomes the address that a record is sent from.
    pub fn advertise(
        &mut self,
        name: impl AsRef<[u8]>,
        service_type: impl AsRef<[u8]>,
        location: impl AsRef<[u8]>,
        outbox: &mut [u8],
    ) -> Result<Answer, Refusal> {
        let answer = abi::advertise(&mut self.arrays, name.as_ref(), service_type.as_ref(), location.as_ref(), outbox);
        self.noted(answer)
    }

    /// Says that the service of a name has gone. A name that is not held does nothing.
    pub fn deadvertise(&mut self, name: impl AsRef<[u8]>, outbox: &mut [u8]) -> Result<Answer, Refusal> {
        let answer = abi::deadvertise(&mut self.arrays, name.as_ref(), outbox);
        self.noted(answer)
    }

    /// Announces all, and searches for all, at once.
    pub fn refresh(&mut self, outbox: &mut [u8]) -> Result<Answer, Refusal> {
        let answer = abi::refresh(&self.arrays, outbox);
        self.noted(answer)
    }

    /// A datagram has come. `receiver` is the host's address that it reached: for one sent to the group, that of the link it came by.
    pub fn on_data(&mut self, time: u64, sender: SocketAddrV4, receiver: Ipv4Addr, datagram: &[u8]) -> Result<Answer, Refusal> {
        let (address, port) = (u32::from(*sender.ip()), sender.port());
        let answer = abi::on_data(&mut self.arrays, time, address, port, receiver.into(), datagram);
        self.noted(answer)
    }

    /// To be called once [`Engine::poll`] has come: sends the replies that are due, and the refresh if that is.
    pub fn handle_timeout(&mut self, time: u64, outbox: &mut [u8]) -> Result<Answer, Refusal> {
        let answer = abi::handle_timeout(&mut self.arrays, time, outbox);
        self.noted(answer)
    }

    /// Begins the refreshes anew, as after the network was away.
    pub fn reset_refresh_timer(&mut self, time: u64) -> Result<Answer, Refusal> {
        let answer = abi::reset_refresh_timer(&mut self.arrays, time);
        self.noted(answer)
    }

    /// Remembers when to wake: a refusal has the untouched engine's `waiting` and `poll`, so every answer tells.
    fn noted(&mut self, answer: RawAnswer) -> Result<Answer, Refusal> {
        self.waiting = answer.waiting;
        self.poll = answer.poll;
        Answer::of(&answer)
    }
}

/// What a call needs of an outbox, in bytes, by the count that the library itself refuses by.
impl Engine {
    /// What [`Engine::subscribe`] needs: a record from each address on a link that is up.
    pub fn subscribe_need(&self) -> usize {
        abi::announcement_need(&self.arrays)
    }

    /// What [`Engine::advertise`] needs: a record from each address on a link that is up.
    pub fn advertise_need(&self) -> usize {
        abi::announcement_need(&self.arrays)
    }

    /// What [`Engine::deadvertise`] needs: a record from each address on a link that is up, or nothing where the name is not held.
    pub fn deadvertise_need(&self, name: impl AsRef<[u8]>) -> usize {
        abi::deadvertise_need(&self.arrays, name.as_ref())
    }

    /// What [`Engine::refresh`] needs: a record for each name and each search, from each address on a link that is up. There is a search for each
    /// subscription, and one alone where a subscription is `ssdp:all`.
    ///
    /// ```
    /// # use kohlsilk::{flags, Engine, OUTBOX_SIZE, RECORD_SIZE};
    /// # let (mut engine, mut outbox) = (Engine::new(0, 0)?, vec![0; OUTBOX_SIZE]);
    /// # engine.new_link(1, flags::UP | flags::RUNNING | flags::MULTICAST, 0, &mut outbox)?;
    /// # engine.new_address(1, &[10, 0, 0, 1], &mut outbox)?;
    /// engine.advertise("u1", "t:1", "http://h/d", &mut outbox)?;
    /// engine.subscribe("t:2", &mut outbox)?;
    /// engine.subscribe("t:3", &mut outbox)?;
    /// assert_eq!(engine.refresh_need(), 3 * RECORD_SIZE);
    /// engine.subscribe("ssdp:all", &mut outbox)?;
    /// assert_eq!(engine.refresh_need(), 2 * RECORD_SIZE);
    /// # Ok::<(), kohlsilk::Refusal>(())
    /// ```
    pub fn refresh_need(&self) -> usize {
        abi::refresh_need(&self.arrays)
    }

    /// What [`Engine::handle_timeout`] needs at this time: that of a refresh, if the refresh is due, and for each reply that is due one record to
    /// its searcher, or one to the group from each address on a link that is up.
    pub fn handle_timeout_need(&self, time: u64) -> usize {
        abi::handle_timeout_need(&self.arrays, time)
    }

    /// What [`Engine::new_link`] needs: a record for each name and each search, from each address of a link that is held and turns up; for other
    /// news nothing.
    pub fn new_link_need(&self, index: u32, flags: u32) -> usize {
        abi::new_link_need(&self.arrays, index, flags)
    }

    /// What [`Engine::new_address`] needs: a record for each name and each search, if the address is stored on a link that is up; otherwise nothing.
    pub fn new_address_need(&self, index: u32, address: &[u8]) -> usize {
        abi::new_address_need(&self.arrays, index, address)
    }
}

impl fmt::Debug for Engine {
    fn fmt(&self, f: &mut fmt::Formatter<'_>) -> fmt::Result {
        f.debug_struct("Engine").field("waiting", &self.waiting).field("poll", &self.poll).finish_non_exhaustive()
    }
}

/// A refused [`Engine::new`]: why, and the engine of that seed, begun at time 0, with which the host may go on. `?` makes a [`Refusal`] of it.
#[derive(Clone, Debug)]
pub struct RefusedStart {
    /// Why the time was refused.
    pub refusal: Refusal,
    /// The engine, begun at time 0.
    pub engine: Engine,
}

impl From<RefusedStart> for Refusal {
    fn from(start: RefusedStart) -> Refusal {
        start.refusal
    }
}

impl fmt::Display for RefusedStart {
    fn fmt(&self, f: &mut fmt::Formatter<'_>) -> fmt::Result {
        self.refusal.fmt(f)
    }
}
