//! What the memories have met: clauses of the memory test, places of stray words, places of the head
//! message, counts of pages, answers and traps by operation, and what else happened in steps.

use std::fmt::{self, Display, Formatter};

use judge::counts::EventCounts;
use judge::memory::{clauses, what_stands_at, Fault, PAGES_AT, SIZE};
use judge::node::Operation;

use crate::asked::{taken_apart, Asked};
use crate::calls::Calls;
use crate::comparison::{compare, Met};
use crate::memories::{Memories, Trial};

/// So many memories are held to meet everything.
const ENOUGH: u64 = 100_000;
const TOO_SHORT: &str = "memory too short";
/// The operations' letters, and what is read as none.
const OPERATIONS: &[u8; 14] = b"AOISTMEDBNPLC?";
/// An operation by its letter, then by a line, and power-on.
const ROWS: usize = 2 * OPERATIONS.len() + 1;
const ANSWERS: usize = 17;
const TRAPS: usize = 4;
/// The clauses that stray words break, and where they then stand.
const STRAYS: [(&str, &str); 4] = [
    ("free frames are 0", "in free frames"),
    ("free swap pages are 0", "in free swap pages"),
    ("used-up places are 0", "in used-up places"),
    (
        "places behind the last message are 0",
        "behind last messages",
    ),
];
/// What a stray word is to its place.
const PARTS: [&str; 2] = ["kept lengths", "words"];
const HEADS: [&str; 3] = ["none", "in the hardware queue", "in a frame"];
/// What the counts of pages sent out and brought in are, together.
const COUNTED: [&str; 3] = ["none", "some", "more than can be counted"];

#[derive(Clone, Default)]
struct Row {
    answers: [u64; ANSWERS],
    /// Of accepted steps only.
    traps: [u64; TRAPS],
    no_room: u64,
}

impl Row {
    fn shown(&self) -> impl Iterator<Item = &u64> {
        self.answers
            .iter()
            .chain(&self.traps)
            .chain(std::iter::once(&self.no_room))
    }

    fn sum(&self) -> u64 {
        self.answers.iter().sum::<u64>() + self.no_room
    }

    fn add(&mut self, other: &Row) {
        let answers = self.answers.iter_mut().zip(&other.answers);
        for (sum, count) in answers.chain(self.traps.iter_mut().zip(&other.traps)) {
            *sum += count;
        }
        self.no_room += other.no_room;
    }
}

#[derive(Clone, Default)]
pub struct Table {
    nodes: u64,
    /// In the order of [`told_clauses`].
    clauses: Vec<u64>,
    longer: u64,
    strays: [[u64; PARTS.len()]; STRAYS.len()],
    heads: [u64; HEADS.len()],
    counted: [u64; COUNTED.len()],
    rows: [Row; ROWS],
    events: EventCounts,
}

/// What so many memories of a seed meet, or the first difference. `each` is handed the number of every
/// memory that there is none in, and the count.
pub fn table_of(
    calls: &impl Calls,
    count: u64,
    seed: u64,
    each: impl Fn(u64, u64),
) -> Result<Table, String> {
    let mut table = Table::default();
    for (number, trial) in (1..=count).zip(Memories::new(seed)) {
        let met = compare(calls, &trial).map_err(|difference| {
            format!(
                "seed {seed}, memory {number}, {}: {difference}",
                trial.asked
            )
        })?;
        table.add(&trial, &met);
        each(number, count);
    }
    Ok(table)
}

/// What a memory that is no node can break.
fn told_clauses() -> impl Iterator<Item = &'static str> {
    std::iter::once(TOO_SHORT).chain(clauses())
}

impl Table {
    pub fn add(&mut self, trial: &Trial, met: &Met) {
        self.clauses.resize(told_clauses().count(), 0);
        match &met.fault {
            None => self.nodes += 1,
            Some(fault) => self.add_fault(fault),
        }
        self.longer += u64::from(trial.memory.len() > SIZE);
        self.heads[head_place(met)] += 1;
        self.counted[counted(met)] += 1;
        let row = &mut self.rows[row_of(&trial.asked)];
        match &met.report {
            None => row.no_room += 1,
            Some(report) => {
                row.answers[report.answer as usize] += 1;
                if report.accepted() {
                    row.traps[report.trap as usize] += 1;
                }
                self.events.add(report);
            }
        }
    }

    fn add_fault(&mut self, fault: &Fault) {
        let at = told_clauses().position(|clause| clause == fault.clause());
        self.clauses[at.expect("a clause of the test")] += 1;
        let stray = STRAYS
            .iter()
            .position(|(clause, _)| *clause == fault.clause());
        if let (Some(stray), Fault::Broken(_, words)) = (stray, fault) {
            let is_length = what_stands_at(words[0].0).starts_with("length ");
            self.strays[stray][usize::from(!is_length)] += 1;
        }
    }

    pub fn memories(&self) -> u64 {
        self.nodes + self.clauses.iter().sum::<u64>()
    }

    fn sum(&self) -> Row {
        let mut sum = Row::default();
        for row in &self.rows {
            sum.add(row);
        }
        sum
    }

    /// What was to be met and was not: few memories need meet nothing.
    pub fn missing(&self) -> Vec<String> {
        if self.memories() < ENOUGH {
            return Vec::new();
        }
        self.not_met()
    }

    /// How often each stray word was the first that is wrong, and its name.
    fn stray_counts(&self) -> impl Iterator<Item = (u64, String)> + '_ {
        let places = STRAYS.iter().zip(&self.strays);
        places.flat_map(|((_, place), counts)| {
            let parts = counts.iter().zip(PARTS);
            parts.map(move |(count, part)| (*count, format!("{part} {place}")))
        })
    }

    pub fn not_met(&self) -> Vec<String> {
        let clauses = told_clauses().enumerate().filter_map(|(at, clause)| {
            let met = self.clauses.get(at).is_some_and(|&count| count > 0);
            (!met).then(|| format!("clause \"{clause}\""))
        });
        let sum = self.sum();
        let strays = self.stray_counts().filter(|(count, _)| *count == 0);
        let heads = (0..HEADS.len()).filter(|&at| self.heads[at] == 0);
        let counted = (0..COUNTED.len()).filter(|&at| self.counted[at] == 0);
        let rows = (0..ROWS).filter(|&at| self.rows[at].sum() == 0);
        let answers = (0..ANSWERS).filter(|&answer| sum.answers[answer] == 0);
        let traps = (0..TRAPS).filter(|&trap| sum.traps[trap] == 0);
        clauses
            .chain(strays.map(|(_, name)| name))
            .chain(heads.map(|at| format!("head {}", HEADS[at])))
            .chain(counted.map(|at| format!("pages counted {}", COUNTED[at])))
            .chain(rows.map(row_name))
            .chain(answers.map(|answer| format!("answer {answer}")))
            .chain(traps.map(|trap| format!("trap {trap}")))
            .chain(self.events.missing().map(str::to_string))
            .collect()
    }
}

fn head_place(met: &Met) -> usize {
    match met.head.start {
        0 => 0,
        at if at < PAGES_AT => 1,
        _ => 2,
    }
}

fn counted(met: &Met) -> usize {
    match met.paging {
        [0, 0] => 0,
        counts if counts.contains(&u32::MAX) => 2,
        _ => 1,
    }
}

fn row_of(asked: &Asked) -> usize {
    let operation = |operation: &Operation| {
        let letter = taken_apart(operation).0;
        let at = OPERATIONS.iter().position(|&row| row == letter);
        at.expect("a letter of the table")
    };
    match (asked, asked.operation()) {
        (Asked::Step(..), Some(asked)) => operation(&asked),
        (Asked::Line(_), Some(asked)) => OPERATIONS.len() + operation(&asked),
        _ => ROWS - 1,
    }
}

fn row_name(row: usize) -> String {
    let operation = |at: usize| match OPERATIONS[at] {
        b'?' => "unreadable".to_string(),
        letter => char::from(letter).to_string(),
    };
    if row < OPERATIONS.len() {
        format!("step {}", operation(row))
    } else if row < 2 * OPERATIONS.len() {
        format!("line {}", operation(row - OPERATIONS.len()))
    } else {
        "power-on".to_string()
    }
}

impl Display for Table {
    fn fmt(&self, f: &mut Formatter) -> fmt::Result {
        let memories = self.memories();
        let wide = 2 + memories.to_string().len();
        writeln!(
            f,
            "{memories:>wide$} memories, {} longer than a node",
            self.longer
        )?;
        writeln!(f, "{:>wide$} nodes", self.nodes)?;
        writeln!(
            f,
            "{:>wide$} no nodes, by the first clause broken:",
            memories - self.nodes
        )?;
        for (clause, count) in told_clauses().zip(&self.clauses) {
            writeln!(f, "  {count:>wide$} {clause}")?;
        }
        writeln!(f, "among these, by the first stray word:")?;
        for (count, name) in self.stray_counts() {
            writeln!(f, "  {count:>wide$} {name}")?;
        }
        writeln!(f, "{memories:>wide$} head messages:")?;
        for (place, count) in HEADS.iter().zip(self.heads) {
            writeln!(f, "  {count:>wide$} {place}")?;
        }
        writeln!(
            f,
            "{memories:>wide$} counts of pages sent out and brought in:"
        )?;
        for (counted, count) in COUNTED.iter().zip(self.counted) {
            writeln!(f, "  {count:>wide$} {counted}")?;
        }
        writeln!(f, "in steps:")?;
        for line in self.events.lines(2 + wide) {
            writeln!(f, "{line}")?;
        }
        let sum = self.sum();
        let width = 8.max(wide);
        write!(f, "{:<15}", "answer")?;
        for answer in 0..ANSWERS {
            write!(f, "{answer:>width$}")?;
        }
        for trap in 0..TRAPS {
            write!(f, "{:>width$}", format!("trap {trap}"))?;
        }
        write!(f, "{:>width$}", "no room")?;
        let rows = self.rows.iter().enumerate();
        let rows = rows.map(|(at, row)| (row_name(at), row));
        for (name, row) in rows.chain([("all".to_string(), &sum)]) {
            write!(f, "\n{name:<15}")?;
            for count in row.shown() {
                write!(f, "{count:>width$}")?;
            }
        }
        Ok(())
    }
}
