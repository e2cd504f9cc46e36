//! What the tests share.

use std::collections::VecDeque;
use std::fs;
use std::path::{Path, PathBuf};

use judge::generator::FLAVOURS;
use judge::memory;
use judge::node::{Node, Operation};
use judge::script;

/// The rest of the listing's line for an accepted step of which nothing is to be told.
pub const ACCEPTED: &str = "0,0,0,0,0";

/// A script and the listing that it must have, written line by line.
pub struct Case {
    script: String,
    listing: String,
    lines: usize,
}

impl Case {
    pub fn new() -> Self {
        Case {
            script: String::new(),
            listing: format!("{}\n", script::HEADER),
            lines: 0,
        }
    }

    /// A script line, and its listing line without the number.
    pub fn line(mut self, line: &str, report: &str) -> Self {
        self.lines += 1;
        self.script += &format!("{line}\n");
        self.listing += &format!("{},{report}\n", self.lines);
        self
    }

    pub fn times(self, count: usize, line: &str, report: &str) -> Self {
        (0..count).fold(self, |case, _| case.line(line, report))
    }

    /// Accepted lines, parted by blanks, of which nothing is to be told.
    pub fn quiet(self, lines: &str) -> Self {
        lines
            .split(' ')
            .fold(self, |case, line| case.line(line, ACCEPTED))
    }

    pub fn check(self) {
        assert_eq!(listing(self.script.as_bytes()), self.listing);
    }
}

/// The listing of a script, as text.
pub fn listing(script: &[u8]) -> String {
    String::from_utf8(script::listing(script)).expect("a listing is text")
}

/// The operations that the lines of a script ask for.
pub fn operations(script: &[u8]) -> Vec<Operation> {
    let script = script.strip_suffix(b"\n").unwrap_or(script);
    script
        .split(|&byte| byte == b'\n')
        .map(script::read)
        .collect()
}

/// The operations of random scripts: some seeds of each flavour.
pub fn random_runs(seeds: u64, lines: u64) -> impl Iterator<Item = Vec<Operation>> {
    FLAVOURS.iter().flat_map(move |flavour| {
        (1..=seeds).map(move |seed| operations(&flavour.script(seed, lines)))
    })
}

/// The memory of a node at power-on.
pub fn power_on() -> Vec<u32> {
    let mut memory = vec![0; memory::SIZE];
    assert_eq!(memory::power_on(&mut memory), 0);
    memory
}

/// The memory after the lines of a script, parted by blanks and all accepted; `9*A,1,7` is a line nine
/// times.
pub fn memory_after(script: &str) -> Vec<u32> {
    let mut memory = power_on();
    for lines in script.split_whitespace() {
        let (times, line) = lines.split_once('*').unwrap_or(("1", lines));
        for _ in 0..times.parse().expect("a number") {
            let report = memory::step(&mut memory, &script::read(line.as_bytes()));
            assert!(report.accepted(), "{line}: {report:?}");
        }
    }
    memory
}

/// The node after such lines.
pub fn after(script: &str) -> Node {
    memory::read(&memory_after(script)).expect("a node")
}

/// The node after one more line, which is accepted.
pub fn step(node: &Node, line: &str) -> Node {
    let mut node = node.clone();
    let report = node.step(&script::read(line.as_bytes()));
    assert!(report.accepted(), "{line}: {report:?}");
    node
}

/// Swap page 0 among the pages.
pub const S0: usize = 32;

/// The pages of a group's list.
pub fn pages(node: &Node, group: usize) -> &VecDeque<usize> {
    &node.groups[group - 1].buffer.pages
}

/// A memory as a file has it.
pub fn bytes(memory: &[u32]) -> Vec<u8> {
    memory.iter().flat_map(|word| word.to_le_bytes()).collect()
}

/// The scripts of vectors/.
pub fn vectors() -> Vec<PathBuf> {
    let vectors = Path::new(env!("CARGO_MANIFEST_DIR")).join("../vectors");
    let folders = [
        "base", "order1", "order2", "order3", "order4", "order5", "order6", "order7",
    ];
    let folders = folders.map(|name| vectors.join(name));
    let entries = folders.map(|folder| fs::read_dir(folder).expect("a folder"));
    let paths = entries.into_iter().flatten();
    let paths = paths.map(|entry| entry.expect("an entry").path());
    paths
        .filter(|path| path.extension().is_some_and(|end| end == "script"))
        .collect()
}
