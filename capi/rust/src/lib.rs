//! A node of the FUGU machine in lent memory: the proved calls of `crates/capi` behind a safe
//! interface.
//!
//! - [`calls`]: the calls as they are, over slices, each with the part that it tells in.
//! - [`Node`]: memory, owned or lent, with the calls as methods.
//! - [`Report`]: what a step reported; [`answer`] has its answers by name.
//! - [`Paging`]: how many pages went to swap space and back.
//! - [`words_of_file`]: memory as a file has it.
//! - [`why()`]: why a message of a script was buffered; [`why_all`]: why each of them was, as text, and
//!   [`Reasons`]: the same over a script's portions.
//! - [`Player`]: a script played on memory in portions, with its listing, whose first line is [`header`].
//!
//! ```
//! use fugu::{Node, SIZE};
//!
//! let mut node = Node::power_on(vec![0; SIZE]).expect("the memory is long enough");
//! node.step(b'S', &[1]);
//! let report = node.line(b"A,1,7,8");
//! assert_eq!((report.answer, report.upcall), (0, 1));
//! assert_eq!(node.head(), [7, 8]);
//! ```

pub mod answer;
pub mod calls;
mod file;
mod node;
mod player;
mod portions;
mod reasons;
mod report;
mod why;

pub use file::{words_of_file, FILE_BYTES};
pub use node::{Node, Paging};
pub use player::{header, Player};
pub use reasons::{why_all, Reasons};
pub use report::{Report, Sent};
pub use why::{why, Reason, Refused, Why};

/// The words of a node.
pub const SIZE: usize = 8104;

/// The words of a report.
pub const REPORT: usize = 16;

/// The words that say where the head message stands.
pub const HEAD: usize = 2;

/// The words that say how many pages went to swap space and back.
pub const PAGING: usize = 2;

/// The words that say why a message was buffered.
pub const WHY: usize = 4;

/// The words that are carried from portion to portion while every message is told of.
pub const TELL_STATE: usize = 19;

/// The bytes that are carried beside them: a line that has begun.
pub const TELL_KEPT: usize = 130;

/// The bytes of output that a line of the script takes, at most.
pub const TELL_LINE: usize = 2240;

/// The bytes of output that the script's end takes, at most.
pub const TELL_OUT: usize = 4480;

/// The words that say what a portion came to.
pub const TELL: usize = 3;

/// The words that say what the script's end came to.
pub const TELL_END: usize = 2;

/// The bytes of the listing's first line.
pub const HEADER: usize = 36;

/// The words that are carried from portion to portion while a script is played.
pub const FEED_STATE: usize = 2;

/// The bytes that are carried beside them: a line that has begun.
pub const FEED_KEPT: usize = 130;

/// The bytes of output that a line of the script takes, at most.
pub const FEED_LINE: usize = 192;

/// The words that say what a portion came to.
pub const FEED: usize = 3;

/// The words that say what the script's end came to.
pub const FEED_END: usize = 2;
