//! The judge: the papers' node written a second time, from the papers alone.
//!
//! - [`node`]: the node as ordinary records, its operations, refusals, settling and upcall.
//! - [`memory`]: the same node in lent memory, where docs/MEMORY.md puts it, the memory test, and
//!   random memories to try calls on.
//! - [`state`]: what a node holds, as text, and where two nodes differ.
//! - [`dump`]: a node read from the bytes of its memory.
//! - [`script`]: a script's lines read to operations, reports written as a listing.
//! - [`check`]: a script's lines that can't be read, each with its reason.
//! - [`why`]: why each message of a script was buffered.
//! - [`generator`]: random scripts in flavours, made of bursts and fixed by a seed.
//! - [`counts`]: which answers and traps scripts have met, and which events that no listing tells.
//! - [`feed`]: a script on its way to the judge and to a program at once.
//! - [`comparison`]: a program's listing held against the judge's.
//! - [`program`]: what the programs share.

mod bursts;
pub mod check;
pub mod comparison;
pub mod counts;
pub mod dump;
pub mod feed;
pub mod generator;
pub mod memory;
pub mod node;
pub mod program;
pub mod random;
pub mod script;
pub mod state;
pub mod why;
