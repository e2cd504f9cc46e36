//! What the programs share: their arguments, what they tell of a failure, where the project's own program
//! is, and the scripts that they are measured with.

use std::ffi::OsStr;
use std::fmt::Display;
use std::fs;
use std::io::{self, Write};
use std::path::{Path, PathBuf};
use std::process::{Command, ExitCode, Stdio};

use cli::{plain, print, Done, Failure};

use crate::generator::Flavour;
use crate::node::{MESSAGE_WORDS, QUEUE_PLACES};

/// The measured scripts, if none is named: random ones, the first without much use of swap space, the
/// second with the frames full most of the time, the third of switches while messages wait.
const MEASURED_FLAVOURS: [&str; 3] = ["mixed", "swap", "switches"];
const MEASURED_SEED: u64 = 1998;
const MEASURED_LINES: u64 = 1_000_000;
/// Then a message to the one running, and its disposal, over and over: no switch, no buffer.
const MEASURED_TURN: (&str, [&str; 3]) = ("S, A, D", ["S,1", "A,1,7", "D"]);
/// Then E alone, behind the lines that bring a message: to the hardware queue, and on to a frame. It
/// stands there also where they are played again on the same memory.
const MEASURED_READS: [(&str, &[&str]); 2] = [
    ("E, direct", &["S,1", LONGEST_ARRIVAL]),
    ("E, buffered", &["S,1", LONGEST_ARRIVAL, "T,256"]),
];
/// Then C alone, behind so many messages to the one running, which comes last: no group has mail, or that
/// one alone, and the whole hardware queue is looked through for each group before it.
const MEASURED_MAIL: [(&str, usize); 2] = [("C, no mail", 0), ("C, queue full", QUEUE_PLACES)];
/// With as many words as a message has room for.
const LONGEST_ARRIVAL: &str = "A,1,11,12,13,14,15,16,17,18";
/// What tests the memory before every step is measured with the script's first lines, so many times
/// over: those that end in its first bytes, which are the most that crates/tested/out/tested takes, and
/// no more than so many, for the judge takes long.
const TESTED_BYTES: usize = 64 << 10;
const TESTED_LINES: usize = 4096;
pub const TESTED_TIMES: usize = 64;
/// How often each is measured, and how often the judge, which takes far longer.
pub const ROUNDS: u32 = 15;
pub const JUDGE_ROUNDS: u32 = 5;

/// Runs a command on its arguments as text. It may take long before it tells what it found: where it could
/// not tell it, it says so first.
pub fn run(command: &cli::Command, body: impl FnOnce(&[&str]) -> Done) -> ExitCode {
    command.run(|arguments| {
        cli::output()?;
        let texts: Vec<_> = arguments
            .iter()
            .map(|text| text.to_string_lossy())
            .collect();
        let texts: Vec<&str> = texts.iter().map(|text| text.as_ref()).collect();
        body(&texts)
    })
}

pub fn number(argument: &str) -> Result<u64, Failure> {
    argument
        .parse()
        .map_err(|_| Failure::Misused(format!("not a number: {argument}")))
}

/// The name of a file or a program in a message, where an empty one can be seen, too.
pub fn named(name: impl AsRef<OsStr>) -> String {
    let name = name.as_ref();
    if name.is_empty() {
        return "''".to_string();
    }
    name.to_string_lossy().into_owned()
}

/// What failed of a file or a program.
pub fn failed(name: impl AsRef<OsStr>) -> impl FnOnce(io::Error) -> Failure {
    let name = named(name);
    move |error| Failure::Wrong(format!("{name}: {}", plain(&error)))
}

/// The end of a run that was to meet everything of some kind, by what it missed.
pub fn met_all(missing: &[String]) -> Done {
    if missing.is_empty() {
        return Ok(ExitCode::SUCCESS);
    }
    Err(Failure::Wrong(format!("not met: {}", missing.join(", "))))
}

/// Tells a table of what was met; the end is by what it was to meet and missed.
pub fn tell_met(table: impl Display, missing: &[String]) -> Done {
    print(&format!("{table}\n"))?;
    met_all(missing)
}

/// Tells how far a long run is, each time so many more are done and at its end.
pub fn progress(name: &str, step: u64) -> impl Fn(u64, u64) + '_ {
    move |number, count| {
        if number % step == 0 || number == count {
            tell_progress(&format!("{name}: {number} of {count}"));
        }
    }
}

/// A line of progress. Where standard error fails, the run goes on without.
pub fn tell_progress(line: &str) {
    let _ = writeln!(io::stderr(), "{line}");
}

/// The project's own program. It is called by its wrapper once, which builds it if need be.
pub fn fugu(project: &Path) -> Result<PathBuf, Failure> {
    let wrapper = project.join("bin/fugu");
    let mut building = Command::new(&wrapper);
    let building = building.stdin(Stdio::null()).stdout(Stdio::null());
    let built = building.status().map_err(failed(&wrapper))?;
    if !built.success() {
        return Err(Failure::Wrong(format!("{}: {built}", named(&wrapper))));
    }
    Ok(project.join("programs/target/release/fugu"))
}

/// A script to measure with, and what it is called.
pub struct Measured {
    pub name: String,
    pub script: Vec<u8>,
}

impl Measured {
    /// The script of a file, or random ones, a few lines in turn, E alone, and C alone.
    pub fn scripts(path: Option<&str>) -> Result<Vec<Measured>, Failure> {
        let Some(path) = path else {
            let random = MEASURED_FLAVOURS.into_iter().map(Measured::random);
            let (name, lines) = MEASURED_TURN;
            let turn = Measured::of_lines(name, lines.into_iter().cycle().map(str::to_string));
            let reads = MEASURED_READS.into_iter();
            let reads = reads.map(|(name, before)| Measured::reading(name, before));
            let mail = MEASURED_MAIL.into_iter();
            let mail = mail.map(|(name, queued)| Measured::asking(name, queued));
            return Ok(random.chain([turn]).chain(reads).chain(mail).collect());
        };
        let script = fs::read(path).map_err(failed(path))?;
        let name = path.to_string();
        Ok(vec![Measured { name, script }])
    }

    fn random(name: &str) -> Self {
        let flavour = Flavour::named(name).expect("a flavour of this name");
        Measured {
            name: name.to_string(),
            script: flavour.script(MEASURED_SEED, MEASURED_LINES),
        }
    }

    /// Some lines, then E with each index of a message in turn.
    fn reading(name: &str, before: &[&str]) -> Self {
        let before = before.iter().map(|line| line.to_string());
        let indices = (0..MESSAGE_WORDS).cycle();
        Measured::of_lines(
            name,
            before.chain(indices.map(|index| format!("E,{index}"))),
        )
    }

    /// So many messages to the one running, then C.
    fn asking(name: &str, queued: usize) -> Self {
        let before = ["S,1"].into_iter().chain(vec!["A,1,7"; queued]);
        let lines = before.chain(std::iter::repeat("C"));
        Measured::of_lines(name, lines.map(str::to_string))
    }

    /// The first of these lines.
    fn of_lines(name: &str, lines: impl Iterator<Item = String>) -> Self {
        let lines = lines.take(MEASURED_LINES as usize);
        let script: String = lines.map(|line| line + "\n").collect();
        Measured {
            name: name.to_string(),
            script: script.into_bytes(),
        }
    }
}

/// The lines of a script that end in its first 64 KiB, of these at most 4096.
pub fn tested_lines(script: &[u8]) -> &[u8] {
    first_lines(&script[..script.len().min(TESTED_BYTES)], TESTED_LINES)
}

/// At most so many lines of a script, each with its newline.
pub fn first_lines(script: &[u8], most: usize) -> &[u8] {
    let newlines = (0..script.len()).filter(|&at| script[at] == b'\n');
    let last_newline = newlines.take(most).last();
    &script[..last_newline.map_or(0, |at| at + 1)]
}
