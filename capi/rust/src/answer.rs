//! The answers of a report by name: 0 accepted, each refusal by its number.

pub const ACCEPTED: u32 = 0;
pub const NOT_NODE: u32 = 1;
pub const UNREADABLE: u32 = 2;
pub const BAD_GROUP: u32 = 3;
pub const BAD_WORDS: u32 = 4;
pub const QUEUE_FULL: u32 = 5;
pub const NO_PAGES: u32 = 6;
pub const NOBODY_RUNS: u32 = 7;
pub const NO_MESSAGE: u32 = 8;
pub const PAST_MESSAGE: u32 = 9;
pub const STILL_PENDING: u32 = 10;
pub const DESCRIPTOR_FULL: u32 = 11;
pub const DESCRIPTOR_EMPTY: u32 = 12;
pub const BAD_NODE: u32 = 13;
pub const BAD_SCHEDULE: u32 = 14;
pub const BAD_TICKS: u32 = 15;
pub const ALREADY_RUNS: u32 = 16;
/// Of [`crate::calls::why`] alone.
pub const NO_ARRIVAL: u32 = 17;
