//! How much an engine holds, and the sizes of the arrays that it is made of, as the library has them. The tests compare them with the library and with the header.

/// The latest time, in milliseconds: a call with a later one is refused.
pub const TIME_MAX: u64 = (1 << 63) - 1;

/// The names that are held.
pub const NAMES: usize = 8;

/// The subscriptions that are held.
pub const SUBSCRIPTIONS: usize = 4;

/// The links that are held.
pub const LINKS: usize = 3;

/// The addresses of a link that are held.
pub const ADDRESSES: usize = 2;

/// The longest name, in bytes.
pub const NAME_SIZE: usize = 128;

/// The longest type.
pub const TYPE_SIZE: usize = 80;

/// The longest location.
pub const LOCATION_SIZE: usize = 120;

/// What a record takes of the outbox.
pub const RECORD_SIZE: usize = 524;

/// The most records of a call: a refresh and a reply to the group for each name, from each address.
pub const RECORDS: usize = (2 * NAMES + SUBSCRIPTIONS) * LINKS * ADDRESSES;

/// The length of an outbox that no call refuses: the most that any call on any engine needs.
pub const OUTBOX_SIZE: usize = RECORD_SIZE * RECORDS;

/// The places of the head: the timer, and how many of each are held.
pub(crate) const HEAD_PLACES: usize = 6;

/// Where the head has the number of names.
pub(crate) const NAME_COUNT: usize = 3;

/// A row of a link: index, up, how many addresses, and the addresses.
pub(crate) const LINK_WIDTH: usize = 3 + ADDRESSES;

/// A row of a subscription: the length of its type, and the type.
pub(crate) const SEARCH_WIDTH: usize = 1 + TYPE_SIZE;

/// A row of a name: the lengths of its four texts, and five numbers of its waiting reply.
pub(crate) const NUMBERS_WIDTH: usize = 9;

/// Its texts: name, type, location, and the type of the waiting answer.
pub(crate) const TEXTS_WIDTH: usize = LOCATION_PLACE + LOCATION_SIZE + TYPE_SIZE;

/// Where the type begins in them, and the location.
pub(crate) const TYPE_PLACE: usize = NAME_SIZE;
pub(crate) const LOCATION_PLACE: usize = TYPE_PLACE + TYPE_SIZE;
