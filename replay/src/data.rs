//! A run as text, written and read: docs/REPLAY.md has the format.

use std::fmt::Write;

use fugu::SIZE;

use crate::run::{changes, Begin, Change, Head, Line, Reasons, Run, NEWLINE};
use crate::text::{escaped, number, unescaped};

/// What a run begins with, and the format's number.
const NAME: &str = "fugu-replay";
const FORMAT: &str = "1";

/// The sizes of docs/MEMORY.md's map, which the page takes from here.
const MAP: &str = "frames=32 swap=64 page=8 groups=8 places=16 message=8 ticks=256";

/// What a run begins at, and whether its script's last line has its newline, each by its name.
const BEGIN: [(&str, Begin); 3] = [
    ("power-on", Begin::PowerOn),
    ("node", Begin::Node),
    ("no-node", Begin::NoNode),
];
const NEWLINES: [(&str, bool); 2] = [("yes", true), ("no", false)];

const END: &str = "end";

/// What means something to a page or to the format, beside the backslash.
const SPECIAL: &[u8] = b"<>&|";

/// The most lines that are shown.
pub const MOST_LINES: u64 = 20_000;

/// How many lines stand before those of the script.
pub const HEAD: usize = 9;

/// What a line of the script has, parted by strokes.
pub const CHANGE: &str = "change";
pub const FIELDS: [&str; 5] = ["number", "text", "report", CHANGE, "reason"];

/// A run as a page has it.
pub fn written(run: &Run) -> String {
    let mut text = String::new();
    for line in head(&run.head) {
        writes(&mut text, &line);
    }
    for (number, line) in (run.head.first..).zip(&run.lines) {
        writes(&mut text, &row(number, line, &run.reasons));
    }
    writes(&mut text, END);
    text
}

fn writes(text: &mut String, line: &str) {
    writeln!(text, "{line}").expect("a string takes it");
}

fn head(head: &Head) -> [String; HEAD] {
    let (first, last, total) = (head.first, head.last, head.total);
    let start = changes(&vec![0; head.start.len()], &head.start);
    [
        format!("{NAME} {FORMAT}"),
        format!("words {SIZE}"),
        format!("map {MAP}"),
        format!("title {}", escaped(&head.title, SPECIAL)),
        format!("begin {}", name_of(&BEGIN, head.begin)),
        format!("memory {}", head.start.len()),
        format!("lines {first} {last} {total}"),
        format!("newline {}", name_of(&NEWLINES, head.newline)),
        format!("start {}", changed(&start)),
    ]
}

/// The name of one of those that have one.
fn name_of<T: PartialEq>(names: &[(&'static str, T)], of: T) -> &'static str {
    let mut found = names.iter().filter(|(_, known)| *known == of);
    found
        .next()
        .map(|(name, _)| *name)
        .expect("each has its name")
}

fn row(number: u64, line: &Line, reasons: &Reasons) -> String {
    let (text, changes) = (escaped(&line.bytes, SPECIAL), changed(&line.changes));
    let reason = match reasons.get(&number) {
        Some((reason, at)) => format!("{reason} at {at}"),
        None => String::new(),
    };
    format!("{number}|{text}|{}|{changes}|{reason}", line.report)
}

/// As `164=0,1,2 200=7`.
fn changed(changes: &[Change]) -> String {
    let changes = changes.iter().map(|(address, words)| {
        let words: Vec<String> = words.iter().map(u32::to_string).collect();
        format!("{address}={}", words.join(","))
    });
    changes.collect::<Vec<String>>().join(" ")
}

/// What of a run is told by its text alone: all but what the lines come to.
#[derive(Debug)]
pub struct Told {
    pub head: Head,
    /// The lines shown.
    pub script: Vec<u8>,
    pub reasons: Reasons,
}

/// Reads a run's text. Whether it is to the byte as it would be written is not asked here.
pub fn read(text: &str) -> Result<Told, String> {
    let mut lines: Vec<&str> = text.lines().collect();
    if lines.pop() != Some(END) {
        return Err("the run is cut short: its last line is not \"end\"".to_string());
    }
    let mut lines = lines.into_iter();
    let head = read_head(&mut lines)?;
    let shown = lines.len() as u64;
    if shown > MOST_LINES || !is_part(&head, shown) {
        let (first, last, total) = (head.first, head.last, head.total);
        return Err(format!(
            "the run has {shown} lines, and says that they are {first} to {last} of {total}"
        ));
    }
    let mut told = Told {
        head,
        script: Vec::new(),
        reasons: Reasons::new(),
    };
    for (line, number) in lines.zip(told.head.first..) {
        read_row(line, number, &mut told).ok_or(format!("line {number} can't be read"))?;
    }
    if !told.head.newline && told.head.last == told.head.total {
        told.script.pop();
    }
    Ok(told)
}

/// Whether so many lines can be those that a run says they are.
fn is_part(head: &Head, shown: u64) -> bool {
    let behind = head.first.checked_add(shown);
    head.first >= 1
        && head.last <= head.total
        && behind.is_some_and(|behind| behind - 1 == head.last)
        && (shown > 0 || head.total == 0)
}

/// The lines before those of the script, in their order.
fn read_head<'a>(lines: &mut impl Iterator<Item = &'a str>) -> Result<Head, String> {
    let mut next = |name: &str| {
        let line = lines.next().and_then(|line| line.strip_prefix(name));
        let value = line.and_then(|line| line.strip_prefix(' '));
        value.ok_or(format!("the run has no {name} where it belongs"))
    };
    same(NAME, next(NAME)?, FORMAT)?;
    same("words", next("words")?, &SIZE.to_string())?;
    same("map", next("map")?, MAP)?;
    let title = unescaped(next("title")?).ok_or("the title can't be read")?;
    let begin = named(&BEGIN, next("begin")?)?;
    let memory = number(next("memory")?).filter(|&words| words <= SIZE as u64);
    let memory = memory.ok_or("the memory is no number of words that a node has")?;
    let lines: Option<Vec<u64>> = next("lines")?.split(' ').map(number).collect();
    let Some(&[first, last, total]) = lines.as_deref() else {
        return Err("the lines shown are not three numbers".to_string());
    };
    let newline = named(&NEWLINES, next("newline")?)?;
    let mut start = vec![0; memory as usize];
    put(&mut start, next("start")?).ok_or("the start can't be read")?;
    Ok(Head {
        title,
        begin,
        first,
        last,
        total,
        newline,
        start,
    })
}

/// Whether a page is of this build: one of another has another map, and other proofs behind it.
fn same(name: &str, has: &str, known: &str) -> Result<(), String> {
    if has == known {
        return Ok(());
    }
    Err(format!(
        "the run is of another build: it has \"{name} {has}\", and this program \"{name} {known}\""
    ))
}

/// What has this name.
fn named<T: Copy>(names: &[(&str, T)], text: &str) -> Result<T, String> {
    let mut found = names.iter().filter(|(name, _)| *name == text);
    let all: Vec<&str> = names.iter().map(|(name, _)| *name).collect();
    let told = format!("the run has none of {} where it should", all.join(", "));
    found.next().map(|(_, known)| *known).ok_or(told)
}

/// Puts words that changed into a memory that has them all.
fn put(memory: &mut [u32], changes: &str) -> Option<()> {
    for change in changes.split_terminator(' ') {
        let (address, words) = change.split_once('=')?;
        let address = usize::try_from(number(address)?).ok()?;
        let mut places = memory.get_mut(address..)?.iter_mut();
        for word in words.split(',') {
            *places.next()? = u32::try_from(number(word)?).ok()?;
        }
    }
    Some(())
}

/// Of a line of the script what is not played.
fn read_row(line: &str, of: u64, told: &mut Told) -> Option<()> {
    let fields: Vec<&str> = line.split('|').collect();
    let [_, text, _, _, reason] = fields.try_into().ok()?;
    told.script.extend(unescaped(text)?);
    told.script.push(NEWLINE);
    if !reason.is_empty() {
        let (reason, at) = reason.split_once(" at ")?;
        told.reasons.insert(of, (number(reason)?, number(at)?));
    }
    Some(())
}
