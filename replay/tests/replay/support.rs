//! What the tests share.

use std::fs;
use std::io::Write;
use std::path::{Path, PathBuf};
use std::process::{Command, Output, Stdio};

use judge::generator::FLAVOURS;
use replay::page;
use replay::run::{self, Run};

pub const REPLAY: &str = env!("CARGO_BIN_EXE_replay");

/// So many lines has a random script.
const LINES: u64 = 300;
const SEED: u64 = 27;

/// The project's folder.
pub fn root() -> PathBuf {
    Path::new(env!("CARGO_MANIFEST_DIR")).join("..")
}

/// A file of a test's own.
pub fn file(name: &str) -> PathBuf {
    Path::new(env!("CARGO_TARGET_TMPDIR")).join(name)
}

/// A script that stands in the project, or a random one, and its listing.
pub struct Script {
    pub name: String,
    pub bytes: Vec<u8>,
    pub listing: Vec<u8>,
}

/// Every vector and example, and a random script of every flavour.
pub fn scripts() -> Vec<Script> {
    let vectors = entries(&root().join("vectors"));
    let folders = vectors.into_iter().chain([root().join("examples")]);
    let mut scripts: Vec<Script> = folders
        .flat_map(|folder| entries(&folder))
        .filter_map(kept)
        .collect();
    assert!(scripts.len() > 150, "{} scripts", scripts.len());
    scripts.extend(FLAVOURS.iter().map(|flavour| {
        let bytes = flavour.script(SEED, LINES);
        Script {
            name: flavour.name.to_string(),
            listing: judge::script::listing(&bytes),
            bytes,
        }
    }));
    scripts
}

fn kept(path: PathBuf) -> Option<Script> {
    path.extension().filter(|&end| end == "script")?;
    Some(Script {
        name: path.display().to_string(),
        bytes: fs::read(&path).expect("the script is read"),
        listing: fs::read(path.with_extension("listing")).expect("the listing is read"),
    })
}

fn entries(folder: &Path) -> Vec<PathBuf> {
    let entries = fs::read_dir(folder).expect("the folder is read");
    let mut paths: Vec<_> = entries
        .map(|entry| entry.expect("the folder is read").path())
        .collect();
    paths.sort();
    paths
}

/// The script that most tests take.
pub fn whole_case() -> Vec<u8> {
    fs::read(root().join("examples/whole-case.script")).expect("the script is read")
}

/// A whole script from power-on.
pub fn played(script: &[u8]) -> Run {
    run::play(b"a script".to_vec(), None, script, 1..=run::count(script))
}

pub fn page_of(script: &[u8]) -> String {
    page::written(&played(script))
}

/// The program, with this on its standard input.
pub fn replay(arguments: &[&str], script: &[u8]) -> Output {
    let mut child = Command::new(REPLAY)
        .args(arguments)
        .stdin(Stdio::piped())
        .stdout(Stdio::piped())
        .stderr(Stdio::piped())
        .spawn()
        .expect("replay starts");
    let mut input = child.stdin.take().expect("the input is piped");
    // One that is refused may be gone before it is written to.
    let _ = input.write_all(script);
    drop(input);
    child.wait_with_output().expect("replay ends")
}

/// What it wrote, where all went well.
pub fn written(output: &Output) -> String {
    assert_eq!(String::from_utf8_lossy(&output.stderr), "");
    assert_eq!(output.status.code(), Some(0));
    String::from_utf8(output.stdout.clone()).expect("a page is text")
}

/// It ended with this status, wrote nothing, and said this first.
pub fn refused(output: &Output, status: i32, message: &str) {
    let told = String::from_utf8_lossy(&output.stderr);
    assert_eq!(
        told.lines().next(),
        Some(format!("replay: {message}").as_str())
    );
    assert_eq!(output.status.code(), Some(status), "{told}");
    assert!(output.stdout.is_empty());
}

/// The same, and said nothing else.
pub fn refused_in_a_line(output: &Output, status: i32, message: &str) {
    refused(output, status, message);
    assert_eq!(
        output.stderr.iter().filter(|&&byte| byte == b'\n').count(),
        1
    );
}

/// A run as whoever has a page and docs/REPLAY.md would read it.
pub struct Data<'a> {
    head: Vec<&'a str>,
    /// The fields of each line.
    pub lines: Vec<[&'a str; 5]>,
}

impl<'a> Data<'a> {
    pub fn of(page: &'a str) -> Data<'a> {
        let (_, from) = page
            .split_once("<script type=\"text/plain\" id=\"run\">\n")
            .unwrap();
        let (block, _) = from.split_once("\nend\n</script>").unwrap();
        let lines: Vec<&str> = block.split('\n').collect();
        let (head, lines) = lines.split_at(9);
        let fields = |line: &&'a str| line.split('|').collect::<Vec<_>>().try_into().unwrap();
        Data {
            head: head.to_vec(),
            lines: lines.iter().map(fields).collect(),
        }
    }

    /// What stands behind a name.
    pub fn named(&self, name: &str) -> &'a str {
        let mut values = self.head.iter().filter_map(|line| line.split_once(' '));
        values.find(|(known, _)| *known == name).unwrap().1
    }

    /// The memory before the first line.
    pub fn start(&self) -> Vec<u32> {
        let mut memory = vec![0; self.named("memory").parse().unwrap()];
        put(&mut memory, self.named("start"));
        memory
    }
}

/// Puts words that changed into a memory.
pub fn put(memory: &mut [u32], changes: &str) {
    for change in changes.split_terminator(' ') {
        let (address, words) = change.split_once('=').unwrap();
        let from: usize = address.parse().unwrap();
        for (place, word) in (from..).zip(words.split(',')) {
            memory[place] = word.parse().unwrap();
        }
    }
}
