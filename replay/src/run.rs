//! A script played by the proved calls: of each line shown its bytes, its report and the words that it
//! changed, and of each arrival its reason.

use std::collections::BTreeMap;
use std::io::{self, Write};
use std::ops::RangeInclusive;

use fugu::{calls, why_all, Node, Player, SIZE};

use crate::text::number;

pub const NEWLINE: u8 = b'\n';

/// What a run begins at.
#[derive(Clone, Copy, Debug, PartialEq, Eq)]
pub enum Begin {
    PowerOn,
    /// One that was there.
    Node,
    /// Memory that is none: each line is answered 1.
    NoNode,
}

impl Begin {
    /// Of a run on memory that was there.
    pub fn on(memory: &[u32]) -> Begin {
        if is_node(memory) {
            Begin::Node
        } else {
            Begin::NoNode
        }
    }
}

/// What is told of a run before its lines.
#[derive(Clone, Debug, PartialEq, Eq)]
pub struct Head {
    pub title: Vec<u8>,
    pub begin: Begin,
    /// The numbers of the first and the last line shown.
    pub first: u64,
    pub last: u64,
    /// How many lines the script has.
    pub total: u64,
    /// Whether its last line has its newline.
    pub newline: bool,
    /// The memory before the first line shown, as far as a node goes.
    pub start: Vec<u32>,
}

impl Head {
    /// Whether what is shown is the whole script, from power-on: then nothing of it is taken as it stands.
    pub fn is_whole(&self) -> bool {
        self.begin == Begin::PowerOn && self.first == 1 && self.last == self.total
    }
}

/// Neighbouring words that changed: the first one's address, and what stands there now.
pub type Change = (usize, Vec<u32>);

/// A line that is shown.
#[derive(Clone, Debug, PartialEq, Eq)]
pub struct Line {
    pub bytes: Vec<u8>,
    /// As the listing has it, behind the line's number.
    pub report: String,
    pub changes: Vec<Change>,
}

/// Of accepted arrivals, by their lines: the reason's number, and the line that it is named with.
pub type Reasons = BTreeMap<u64, (u64, u64)>;

/// What is shown of a run.
#[derive(Clone, Debug, PartialEq, Eq)]
pub struct Run {
    pub head: Head,
    pub lines: Vec<Line>,
    pub reasons: Reasons,
}

/// The memory that a script is played from where no other is named.
pub fn power_on() -> Vec<u32> {
    let node = Node::power_on(vec![0; SIZE]).expect("the memory is long enough");
    node.into_memory()
}

/// Whether memory is a node, by the proved test.
pub fn is_node(memory: &[u32]) -> bool {
    calls::test(memory) == 1
}

/// How many lines a script has.
pub fn count(script: &[u8]) -> u64 {
    let newlines = script.iter().filter(|&&byte| byte == NEWLINE).count();
    newlines as u64 + u64::from(!ends_with_newline(script))
}

/// Whether no last line lacks its newline.
pub fn ends_with_newline(script: &[u8]) -> bool {
    script.last().is_none_or(|&byte| byte == NEWLINE)
}

/// Where a script's lines end, with their newlines.
fn length_of_lines(script: &[u8], count: u64) -> usize {
    let lines = script.split_inclusive(|&byte| byte == NEWLINE);
    let count = usize::try_from(count).unwrap_or(usize::MAX);
    lines.take(count).map(<[u8]>::len).sum()
}

/// Plays a script, from power-on where no memory is named, and keeps what is shown of it: the lines of
/// these numbers.
pub fn play(
    title: Vec<u8>,
    memory: Option<Vec<u32>>,
    script: &[u8],
    shown: RangeInclusive<u64>,
) -> Run {
    let (first, last) = shown.into_inner();
    let begin = memory.as_deref().map_or(Begin::PowerOn, Begin::on);
    let played = &script[..length_of_lines(script, last)];
    let (before, shown) = played.split_at(length_of_lines(played, first - 1));
    let start = after(memory.unwrap_or_else(power_on), before);
    let reasons = match begin {
        Begin::PowerOn => reasons(script),
        Begin::Node | Begin::NoNode => Reasons::new(),
    };
    let head = Head {
        title,
        begin,
        first,
        last,
        total: count(script),
        newline: ends_with_newline(script),
        start: start.clone(),
    };
    Run {
        head,
        lines: lines(start, shown),
        reasons,
    }
}

/// The memory after whole lines.
fn after(memory: Vec<u32>, lines: &[u8]) -> Vec<u32> {
    listed(memory, lines, &mut io::sink())
}

/// A script's lines, played on memory one after another.
pub fn lines(mut memory: Vec<u32>, script: &[u8]) -> Vec<Line> {
    let mut played = Vec::new();
    for line in script.split_inclusive(|&byte| byte == NEWLINE) {
        let before = memory.clone();
        let mut listing = Vec::new();
        memory = listed(memory, line, &mut listing);
        played.push(Line {
            bytes: line.strip_suffix(&[NEWLINE]).unwrap_or(line).to_vec(),
            report: report(&listing),
            changes: changes(&before, &memory),
        });
    }
    played
}

/// The memory after a script, which is listed without the header.
fn listed(memory: Vec<u32>, script: &[u8], listing: &mut impl Write) -> Vec<u32> {
    let mut player = Player::over(memory);
    player
        .feed(script, listing)
        .and_then(|()| player.finish(listing))
        .expect("a script in memory has fewer lines than there are numbers")
}

/// What the listing of one line has behind its number.
fn report(listing: &[u8]) -> String {
    let text = String::from_utf8_lossy(listing);
    let line = text
        .strip_prefix("1,")
        .and_then(|text| text.strip_suffix('\n'));
    line.expect("one line is listed").to_string()
}

/// The longest runs of neighbouring words that differ, as they are now.
pub fn changes(before: &[u32], now: &[u32]) -> Vec<Change> {
    let mut changes: Vec<Change> = Vec::new();
    for (address, (old, new)) in before.iter().zip(now).enumerate() {
        if old == new {
            continue;
        }
        match changes.last_mut() {
            Some((from, words)) if *from + words.len() == address => words.push(*new),
            _ => changes.push((address, vec![*new])),
        }
    }
    changes
}

/// The reasons of a script that is played from power-on.
pub fn reasons(script: &[u8]) -> Reasons {
    let told = String::from_utf8(why_all(script)).expect("the call writes plain text");
    told.lines().map(reason).collect()
}

/// As in "line 3: reason 3 at line 4: its group wasn't running when it became head".
fn reason(told: &str) -> (u64, (u64, u64)) {
    let mut numbers = told
        .split(|sign: char| !sign.is_ascii_digit())
        .filter_map(number);
    let mut next = || numbers.next().expect("the line, the reason and its line");
    (next(), (next(), next()))
}
