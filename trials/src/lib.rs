//! The proved calls held against the judge on random memories and scripts.
//!
//! Neither knows the other: `fugu` is the interface to the proved library, `judge` the program that
//! was written from the paper alone.
//!
//! - [`calls`]: the calls that are tried, so that wrong ones can stand in for the proved.
//! - [`asked`]: what a memory is asked, and the judge's report of it.
//! - [`memories`]: random memories, each with what it is asked.
//! - [`comparison`]: one memory by the calls and by the judge.
//! - [`table`]: what the memories have met.
//! - [`why`]: why messages of random scripts were buffered, compared and counted.

pub mod asked;
pub mod calls;
pub mod comparison;
pub mod memories;
pub mod table;
pub mod why;
