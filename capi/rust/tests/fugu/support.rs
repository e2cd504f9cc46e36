//! What the tests share.

use std::fs;
use std::path::{Path, PathBuf};

use fugu::{Node, Report, FEED, FEED_END, FEED_KEPT, REPORT, SIZE};

/// A node at power-on.
pub fn started() -> Node<Vec<u32>> {
    Node::power_on(vec![0; SIZE]).expect("the memory is long enough")
}

/// What stands in a part before a call.
pub const BEFORE: u64 = 0xdead_beef_dead_beef;

type Portion = fn(&mut [u32], &mut [u64], &mut [u8], &[u8], &mut [u8], &mut [u64]) -> u32;
type End = fn(&mut [u32], &[u64], &[u8], &mut [u8], &mut [u64]) -> u32;

/// What the calls over a script's portions are lent beside the output.
#[derive(Clone, PartialEq, Debug)]
pub struct Lent {
    pub memory: Vec<u32>,
    pub state: Vec<u64>,
    pub kept: Vec<u8>,
}

impl Lent {
    /// Of a script of which nothing has been read, with a state of so many words.
    pub fn new(state: usize) -> Lent {
        Lent {
            memory: started().into_memory(),
            state: vec![0; state],
            kept: vec![0; FEED_KEPT],
        }
    }

    /// One call: why it stopped, how many bytes were written and how many used.
    pub fn portion(&mut self, call: Portion, portion: &[u8], out: &mut [u8]) -> [usize; FEED] {
        let Lent {
            memory,
            state,
            kept,
        } = self;
        let mut part = [BEFORE; FEED];
        let told = call(memory, state, kept, portion, out, &mut part);
        assert_eq!(told as usize, FEED);
        part.map(|word| word as usize)
    }

    /// The script's end: the first two of these.
    pub fn end(&mut self, call: End, out: &mut [u8]) -> [usize; FEED_END] {
        let mut part = [BEFORE; FEED_END];
        let told = call(&mut self.memory, &self.state, &self.kept, out, &mut part);
        assert_eq!(told as usize, FEED_END);
        part.map(|word| word as usize)
    }
}

/// Where no line numbers are left, nothing is used and nothing has changed.
pub fn no_line_numbers_left(state: usize, portion: Portion, end: End, room: usize) {
    let mut lent = Lent::new(state);
    lent.state[0] = u64::MAX - 4;
    let before = lent.clone();
    let mut out = vec![0; room];
    assert_eq!(lent.portion(portion, b"S,1\n", &mut out), [2, 0, 0]);
    assert_eq!(lent, before);
    assert_eq!(lent.portion(portion, b"S,1", &mut out), [0, 0, 3]);
    lent.state[0] = u64::MAX - 1;
    assert_eq!(lent.end(end, &mut out), [2, 0]);
}

/// Where the state, the kept line or the part is too short, nothing has changed of all that is lent.
pub fn too_short(memory: &[u32], state: usize, portion: Portion, end: End, room: usize) {
    let long = [state, FEED_KEPT, FEED];
    for (which, length) in long.into_iter().enumerate() {
        for short in [0, length - 1] {
            let mut lengths = long;
            lengths[which] = short;
            let mut lent = Lent {
                memory: memory.to_vec(),
                state: vec![BEFORE; lengths[0]],
                kept: vec![9; lengths[1]],
            };
            let before = lent.clone();
            let Lent {
                memory,
                state,
                kept,
            } = &mut lent;
            let mut out = vec![9; room];
            let mut part = vec![BEFORE; lengths[2]];
            let told = portion(memory, state, kept, b"S,1\n", &mut out, &mut part);
            assert_eq!(told, 0);
            let two = &mut part[..short.min(FEED_END - 1)];
            assert_eq!(end(memory, state, kept, &mut out, two), 0);
            assert_eq!(lent, before);
            assert_eq!(out, vec![9; room]);
            assert_eq!(part, vec![BEFORE; lengths[2]]);
        }
    }
}

/// A node after some lines of a script, each of them accepted.
pub fn after(lines: &[&str]) -> Node<Vec<u32>> {
    let mut node = started();
    for line in lines {
        assert_eq!(node.line(line.as_bytes()).answer, 0, "{line}");
    }
    node
}

/// Lines, and then one so many times over.
pub fn arrivals<'a>(first: &[&'a str], line: &'a str, count: usize) -> Vec<&'a str> {
    first
        .iter()
        .copied()
        .chain(std::iter::repeat_n(line, count))
        .collect()
}

/// A report of nothing but its answer.
pub fn only(answer: u32) -> Report {
    Report {
        answer,
        ..Report::default()
    }
}

/// A report as a line of a listing has it behind its number: answer, value, trap, upcall, moved, and on an
/// accepted L node, group and words.
pub fn report(fields: &str) -> Report {
    let mut words = [0; REPORT];
    let mut numbers = fields
        .split(',')
        .map(|field| field.parse().expect("a number"));
    for word in words.iter_mut().take(7) {
        *word = numbers.next().unwrap_or(0);
    }
    let sent: Vec<u32> = numbers.collect();
    words[7] = sent.len() as u32;
    words[8..][..sent.len()].copy_from_slice(&sent);
    Report::from_words(&words)
}

/// A line's letter and numbers, where it is written with one letter and good numbers.
pub fn taken_apart(line: &[u8]) -> Option<(u8, Vec<u32>)> {
    let mut fields = std::str::from_utf8(line).ok()?.split(',');
    let &[letter] = fields.next()?.as_bytes() else {
        return None;
    };
    let numbers = fields
        .map(|field| field.parse().ok())
        .collect::<Option<_>>()?;
    Some((letter, numbers))
}

/// A script's lines: behind the last newline none begins.
pub fn lines(script: &[u8]) -> Vec<&[u8]> {
    let mut lines: Vec<_> = script.split(|&byte| byte == b'\n').collect();
    if lines.last().is_some_and(|line| line.is_empty()) {
        lines.pop();
    }
    lines
}

/// The scripts of a folder of the project that have a listing.
pub fn listed(folder: &str) -> Vec<PathBuf> {
    let folder = Path::new(env!("CARGO_MANIFEST_DIR"))
        .join("../..")
        .join(folder);
    let mut scripts: Vec<_> = fs::read_dir(&folder)
        .unwrap_or_else(|error| panic!("{}: {error}", folder.display()))
        .map(|entry| entry.expect("the folder is read").path())
        .filter(|path| {
            path.extension().is_some_and(|end| end == "script")
                && path.with_extension("listing").exists()
        })
        .collect();
    scripts.sort();
    assert!(!scripts.is_empty(), "{} has scripts", folder.display());
    scripts
}

/// The scripts of order 6, each with its `.why` beside it.
pub fn scripts() -> Vec<PathBuf> {
    let folder = Path::new(env!("CARGO_MANIFEST_DIR")).join("../../vectors/order6");
    let entries = fs::read_dir(folder).expect("a folder");
    let paths = entries.map(|entry| entry.expect("an entry").path());
    let scripts: Vec<_> = paths
        .filter(|path| path.extension().is_some_and(|end| end == "script"))
        .collect();
    assert_eq!(scripts.len(), 33);
    scripts
}
