//! Which answers and traps scripts have met, operation by operation, and which events that no listing
//! tells.

use std::fmt::{self, Display, Formatter};
use std::io::{self, BufRead};

use crate::node::{Cause, Event, Refusal, Report, Standing};
use crate::script;

/// The rows of the table: the operations' letters, then lines that ask for none.
const ROWS: [&str; 14] = [
    "A",
    "O",
    "I",
    "S",
    "T",
    "M",
    "E",
    "D",
    "B",
    "N",
    "P",
    "L",
    "C",
    "unreadable",
];
const UNREADABLE: usize = ROWS.len() - 1;
const ANSWERS: usize = 17;
const TRAPS: usize = 4;
/// Answer 1 is the memory keeper's: no script can meet it.
const NOT_A_NODE: usize = Refusal::NotANode as usize;

/// All events of steps, in words.
pub const EVENTS: [(Event, &str); 31] = [
    (
        Event::WordRead(Standing::Queued),
        "words read in the hardware queue",
    ),
    (
        Event::WordRead(Standing::FirstPlace),
        "words read in a page's first place",
    ),
    (
        Event::WordRead(Standing::BehindUsedUp),
        "words read behind used-up places",
    ),
    (Event::PlaceUsedUp, "places used up in a page that stays"),
    (Event::PageUsedUp, "pages used up with messages left"),
    (Event::BufferEmptied, "buffers emptied"),
    (Event::SentOut, "pages sent out"),
    (
        Event::BroughtIn(Cause::Write),
        "pages brought in to be written",
    ),
    (
        Event::Exchanged(Cause::Write),
        "pages exchanged to be written",
    ),
    (Event::BroughtIn(Cause::Next), "first pages brought in by D"),
    (
        Event::BroughtIn(Cause::Given),
        "first pages brought in by I",
    ),
    (Event::Exchanged(Cause::Given), "first pages exchanged by I"),
    (Event::IdleTimeout, "timeouts with an empty queue"),
    (Event::FurtherTimeout, "timeouts behind one of the same T"),
    (Event::TimerLeft, "forced timers that settling left"),
    (Event::TimerEnded, "forced timers that N took back"),
    (Event::ForceKept, "processors given to a group with force"),
    (Event::RevokedMoved, "messages moved for revoked alone"),
    (Event::RevokedEnded, "ends of an empty group revoked"),
    (Event::QueueTaken, "processors taken with messages queued"),
    (Event::NobodyTaken, "processors taken with nobody running"),
    (Event::TimerTaken, "forced timers that O met"),
    (Event::TwoActs, "switches of two acts"),
    (
        Event::QueueKept,
        "switches to the one running with messages queued",
    ),
    (
        Event::NewRunnerSentOut,
        "new runners' first pages sent out by their S",
    ),
    (Event::TurnOfNobody, "turns with nobody running"),
    (Event::NoMail, "turns with no mail"),
    (
        Event::OwnMail,
        "turns to the running one that alone has mail",
    ),
    (Event::MailRound, "turns to a group behind 8"),
    (Event::MailQueued, "turns to a group with queued mail alone"),
    (
        Event::MailInSwap,
        "turns to a group with its first page in swap",
    ),
];

/// How often steps had each.
#[derive(Clone, Default)]
pub struct EventCounts([u64; EVENTS.len()]);

impl EventCounts {
    pub fn add(&mut self, report: &Report) {
        for met in &report.events {
            let at = EVENTS.iter().position(|(event, _)| event == met);
            self.0[at.expect("all events of a step")] += 1;
        }
    }

    /// What no step had.
    pub fn missing(&self) -> impl Iterator<Item = &'static str> + '_ {
        let counts = EVENTS.iter().zip(self.0);
        counts.filter_map(|((_, name), count)| (count == 0).then_some(*name))
    }

    /// A line for each, the counts as wide as asked for.
    pub fn lines(&self, width: usize) -> impl Iterator<Item = String> + '_ {
        let counts = EVENTS.iter().zip(self.0);
        counts.map(move |((_, name), count)| format!("{count:>width$} {name}"))
    }
}

#[derive(Clone, Default)]
struct Row {
    answers: [u64; ANSWERS],
    /// Of accepted steps only.
    traps: [u64; TRAPS],
}

impl Row {
    fn add(&mut self, other: &Row) {
        let pairs = self.answers.iter_mut().zip(other.answers);
        for (sum, count) in pairs.chain(self.traps.iter_mut().zip(other.traps)) {
            *sum += count;
        }
    }

    /// What the table shows: the answers that a script can meet, then the traps.
    fn shown(&self) -> impl Iterator<Item = &u64> {
        let answers = self.answers.iter().enumerate();
        let met = answers.filter(|(answer, _)| *answer != NOT_A_NODE);
        met.map(|(_, count)| count).chain(&self.traps)
    }

    /// The columns' width: the headings have room, and the largest count with two blanks.
    fn width(&self) -> usize {
        let largest = self
            .shown()
            .max()
            .map_or(0, |count| count.to_string().len());
        8.max(largest + 2)
    }
}

#[derive(Clone, Default)]
pub struct Counts {
    rows: [Row; ROWS.len()],
    events: EventCounts,
}

impl Counts {
    /// Runs a script and counts what its lines meet.
    pub fn add_script(&mut self, script: impl BufRead) -> io::Result<()> {
        script::run(script, |line, report| {
            self.add(line, report);
            Ok(())
        })
        .map(drop)
    }

    pub fn add(&mut self, line: &[u8], report: &Report) {
        let row = &mut self.rows[row_of(line, report)];
        row.answers[report.answer as usize] += 1;
        if report.accepted() {
            row.traps[report.trap as usize] += 1;
        }
        self.events.add(report);
    }

    fn sum(&self) -> Row {
        let mut sum = Row::default();
        for row in &self.rows {
            sum.add(row);
        }
        sum
    }

    pub fn lines(&self) -> u64 {
        self.sum().answers.iter().sum()
    }

    /// The answers 2 to 16, the traps 0 to 3 and the events that were not met.
    pub fn missing(&self) -> Vec<String> {
        let sum = self.sum();
        let answers = (2..ANSWERS).filter(|&answer| sum.answers[answer] == 0);
        let traps = (0..TRAPS).filter(|&trap| sum.traps[trap] == 0);
        answers
            .map(|answer| format!("answer {answer}"))
            .chain(traps.map(|trap| format!("trap {trap}")))
            .chain(self.events.missing().map(str::to_string))
            .collect()
    }
}

/// A line that was read begins with its operation's letter.
fn row_of(line: &[u8], report: &Report) -> usize {
    if report.answer == Refusal::Unknown as u32 {
        return UNREADABLE;
    }
    let letter = |row: &&str| line.starts_with(row.as_bytes());
    ROWS.iter().position(letter).unwrap_or(UNREADABLE)
}

impl Display for Counts {
    fn fmt(&self, f: &mut Formatter) -> fmt::Result {
        let sum = self.sum();
        let width = sum.width();
        write!(f, "{:<10}", "answer")?;
        for answer in (0..ANSWERS).filter(|&answer| answer != NOT_A_NODE) {
            write!(f, "{answer:>width$}")?;
        }
        for trap in 0..TRAPS {
            write!(f, "{:>width$}", format!("trap {trap}"))?;
        }
        for (name, row) in ROWS.iter().zip(&self.rows).chain([(&"all", &sum)]) {
            write!(f, "\n{name:<10}")?;
            for count in row.shown() {
                write!(f, "{count:>width$}")?;
            }
        }
        let mut events = self.events.lines(10 + width);
        events.try_for_each(|line| write!(f, "\n{line}"))
    }
}
