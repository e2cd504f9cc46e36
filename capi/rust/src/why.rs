//! Why a message of a script was buffered.

use std::fmt;

use crate::answer::{ACCEPTED, UNREADABLE};
use crate::{calls, SIZE, WHY};

/// Why a message is where it is, by its number.
#[derive(Clone, Copy, Debug, PartialEq, Eq)]
pub enum Reason {
    DisposedOf = 1,
    StillQueued = 2,
    NotRunning = 3,
    OlderWaiting = 4,
    Revoked = 5,
    Timeout = 6,
    ProcessorTaken = 7,
}

impl Reason {
    /// All reasons, in the order of their numbers.
    pub const ALL: [Reason; 7] = [
        Reason::DisposedOf,
        Reason::StillQueued,
        Reason::NotRunning,
        Reason::OlderWaiting,
        Reason::Revoked,
        Reason::Timeout,
        Reason::ProcessorTaken,
    ];
}

impl fmt::Display for Reason {
    fn fmt(&self, f: &mut fmt::Formatter<'_>) -> fmt::Result {
        f.write_str(match self {
            Reason::DisposedOf => "never buffered, disposed of",
            Reason::StillQueued => "still in the hardware queue",
            Reason::NotRunning => "its group wasn't running when it became head",
            Reason::OlderWaiting => "older messages of its group were waiting in the buffer",
            Reason::Revoked => "its group was revoked",
            Reason::Timeout => "timeout",
            Reason::ProcessorTaken => "the processor was taken",
        })
    }
}

/// A reason and the line that it is named with: the one that moved the message, for one never buffered
/// the one that disposed of it, for one still queued the script's last.
#[derive(Clone, Copy, Debug, PartialEq, Eq)]
pub struct Why {
    pub reason: Reason,
    pub line: u64,
}

impl fmt::Display for Why {
    fn fmt(&self, f: &mut fmt::Formatter<'_>) -> fmt::Result {
        let Why { reason, line } = self;
        write!(f, "reason {} at line {line}: {reason}", *reason as u32)
    }
}

/// Why a line has no reason: the refusals by their numbers.
#[derive(Clone, Copy, Debug, PartialEq, Eq)]
pub enum Refused {
    Unreadable = 2,
    NoArrival = 17,
}

impl fmt::Display for Refused {
    fn fmt(&self, f: &mut fmt::Formatter<'_>) -> fmt::Result {
        let told = match self {
            Refused::Unreadable => "it can't be read",
            Refused::NoArrival => "it is no accepted arrival of this script",
        };
        write!(f, "refused with {}: {told}", *self as u32)
    }
}

impl std::error::Error for Refused {}

/// Why the message that came by a line of a script, counted from 1, was buffered, or where it went
/// instead. The script is played from power-on, on memory of its own.
///
/// ```
/// use fugu::{why, Reason, Refused, Why};
///
/// let script = b"S,1\nA,1,7\nA,2,5\nD\n";
/// assert_eq!(why(script, 2), Ok(Why { reason: Reason::DisposedOf, line: 4 }));
/// assert_eq!(why(script, 3), Ok(Why { reason: Reason::NotRunning, line: 4 }));
/// assert_eq!(why(script, 4), Err(Refused::NoArrival));
/// ```
pub fn why(script: &[u8], line: u32) -> Result<Why, Refused> {
    let mut part = [0; WHY];
    let written = calls::why(&mut vec![0; SIZE], script, line, &mut part);
    debug_assert_eq!(written as usize, WHY);
    let [answer, reason, low, high] = part;
    match answer {
        ACCEPTED => Ok(Why {
            reason: Reason::ALL[reason as usize - 1],
            line: u64::from(high) << 32 | u64::from(low),
        }),
        UNREADABLE => Err(Refused::Unreadable),
        _ => Err(Refused::NoArrival),
    }
}
