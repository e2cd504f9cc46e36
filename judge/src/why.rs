//! Order 6, "Why was this message buffered": each accepted arrival of a script is followed through the
//! hardware queue, and all reasons that hold at the moment it moves are written down; then the order's
//! rule picks one.

use std::collections::VecDeque;
use std::fmt::{self, Display, Formatter};
use std::io::{self, BufRead};

use crate::node::{Move, Mover, Passage, Refusal, Report};
use crate::script;

/// "one of these, by its number from 1 to 7"
#[derive(Clone, Copy, Debug, PartialEq, Eq)]
pub enum Reason {
    NeverBuffered = 1,
    StillQueued = 2,
    NotRunning = 3,
    OlderWaiting = 4,
    Revoked = 5,
    Timeout = 6,
    ProcessorTaken = 7,
}

impl Display for Reason {
    fn fmt(&self, f: &mut Formatter) -> fmt::Result {
        f.write_str(match self {
            Reason::NeverBuffered => "never buffered, disposed of",
            Reason::StillQueued => "still in the hardware queue",
            Reason::NotRunning => "its group wasn't running when it became head",
            Reason::OlderWaiting => "older messages of its group were waiting in the buffer",
            Reason::Revoked => "its group was revoked",
            Reason::Timeout => "timeout",
            Reason::ProcessorTaken => "the processor was taken",
        })
    }
}

/// A reason, and "the line that moved it, for one never buffered the line that disposed of it, or the
/// script's last for one still queued".
#[derive(Clone, Copy, Debug, PartialEq, Eq)]
pub struct Why {
    pub reason: Reason,
    pub line: u64,
}

impl Display for Why {
    fn fmt(&self, f: &mut Formatter) -> fmt::Result {
        let Why { reason, line } = self;
        write!(f, "reason {} at line {line}: {reason}", *reason as u32)
    }
}

/// "It refuses with 2 a line that the listing answers with 2, then with 17 one that isn't an accepted
/// arrival or isn't in the script."
#[derive(Clone, Copy, Debug, PartialEq, Eq)]
pub enum Refused {
    Unreadable = 2,
    NoArrival = 17,
}

impl Display for Refused {
    fn fmt(&self, f: &mut Formatter) -> fmt::Result {
        let told = match self {
            Refused::Unreadable => "it can't be read",
            Refused::NoArrival => "it is no accepted arrival of this script",
        };
        write!(f, "refused with {}: {told}", *self as u32)
    }
}

/// What is answered where somebody points at a line.
pub type Answer = Result<Why, Refused>;

/// Runs a script from power-on and hands on each line's number with the answer, as soon as that is
/// known: accepted arrivals leave the queue, and so come, in the order of arrival.
pub fn follow(
    input: impl BufRead,
    mut each: impl FnMut(u64, Answer) -> io::Result<()>,
) -> io::Result<()> {
    let mut queue = Queue::default();
    let mut last = 0;
    script::run(input, |text, report| {
        last += 1;
        match refused(text, report) {
            Some(refused) => each(last, Err(refused))?,
            None => queue.lines.push_back(last),
        }
        for &passage in &report.passages {
            if let Some((line, reason)) = queue.pass(passage) {
                each(line, Ok(Why { reason, line: last }))?;
            }
        }
        Ok::<(), io::Error>(())
    })?;
    let reason = Reason::StillQueued;
    let mut queued = queue.lines.into_iter();
    queued.try_for_each(|line| each(line, Ok(Why { reason, line: last })))
}

/// The refusals in the order's order. A line that was read begins with its operation's letter.
fn refused(text: &[u8], report: &Report) -> Option<Refused> {
    if report.answer == Refusal::Unknown as u32 {
        Some(Refused::Unreadable)
    } else if text.starts_with(b"A") && report.accepted() {
        None
    } else {
        Some(Refused::NoArrival)
    }
}

/// The messages in the hardware queue.
#[derive(Default)]
struct Queue {
    /// The lines that they came by, the head's first.
    lines: VecDeque<u64>,
    /// Whether the head's group ran as it became head.
    head_ran: bool,
}

impl Queue {
    /// The line of the message that leaves the queue, if one does, and why.
    fn pass(&mut self, passage: Passage) -> Option<(u64, Reason)> {
        let reason = match passage {
            Passage::BecameHead { runs } => {
                self.head_ran = runs;
                return None;
            }
            Passage::Disposed => Reason::NeverBuffered,
            Passage::Moved(moved) => picked(&holding(&moved, self.head_ran)),
        };
        let line = self.lines.pop_front();
        Some((line.expect("a message that arrived"), reason))
    }
}

/// All reasons that hold as a message moves, in the order's list.
fn holding(moved: &Move, head_ran: bool) -> Vec<Reason> {
    let all = [
        (Reason::NotRunning, !head_ran),
        (Reason::OlderWaiting, moved.older),
        (Reason::Revoked, moved.revoked),
        (Reason::Timeout, moved.by == Mover::Timeout),
        (Reason::ProcessorTaken, moved.by == Mover::Take),
    ];
    let holding = all.into_iter().filter(|(_, holds)| *holds);
    holding.map(|(reason, _)| reason).collect()
}

/// "All that a timeout moves has that reason; else, where several hold, the first in this list is named."
fn picked(holding: &[Reason]) -> Reason {
    if holding.contains(&Reason::Timeout) {
        return Reason::Timeout;
    }
    *holding.first().expect("no message moves without a reason")
}

/// The answer for one line.
pub fn answer(input: impl BufRead, line: u64) -> io::Result<Answer> {
    let mut asked = Err(Refused::NoArrival);
    follow(input, |number, answer| {
        if number == line {
            asked = answer;
        }
        Ok(())
    })?;
    Ok(asked)
}

/// The answers for all lines of a script held whole, from line 0 to the one past the last.
pub fn answers(script: &[u8]) -> Vec<Answer> {
    let not_in_script = Err(Refused::NoArrival);
    let mut answers = vec![not_in_script];
    follow(script, |line, answer| {
        let line = line as usize;
        // Those of lines between are to come.
        answers.resize(answers.len().max(line + 1), not_in_script);
        answers[line] = answer;
        Ok(())
    })
    .expect("memory is read without error");
    answers.push(not_in_script);
    answers
}
