//! Document 01, 'Who can be turned away': each refusal's number, once.
pub const TIME_LATE: u32 = 1;
pub const OUTBOX_SHORT: u32 = 2;
pub const TEXT_OVER_SIZE: u32 = 3;
pub const TEXT_NOT_GOOD: u32 = 4;
pub const TABLE_FULL: u32 = 5;
pub const DATAGRAM_EMPTY: u32 = 7;
pub const DATAGRAM_INVALID: u32 = 8;
pub const WAIT_ZERO: u32 = 9;
pub const TARGET_OVER_SIZE: u32 = 10;
pub const INDEX_ZERO: u32 = 11;
pub const ADDRESS_LENGTH: u32 = 12;
pub const LINKS_FULL: u32 = 13;
pub const JOIN_FAILED: u32 = 14;
