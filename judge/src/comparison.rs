//! A program's listing held against the judge's, byte for byte, while both are written.
//!
//! Neither the script nor a listing is held whole: see [`crate::feed`].

use std::fmt::{self, Display, Formatter};
use std::io::{self, BufRead, BufReader, Read};
use std::process::{Child, Command, Stdio};
use std::sync::atomic::{AtomicU64, Ordering};
use std::sync::mpsc::{self, Receiver, RecvTimeoutError};
use std::thread;
use std::time::Duration;

use cli::plain;

use crate::feed::{feed, Feed};
use crate::node::Report;
use crate::program::named;
use crate::script::{self, HEADER};

/// More than the longest line of a listing; of a longer one only so much is looked at.
const LONGEST_LISTED: usize = 256;
/// How much is kept of what a program writes to standard error.
const LONGEST_COMPLAINT: u64 = 1000;
/// A program that lists nothing for so long has stopped.
const PATIENCE: Duration = Duration::from_secs(60);

/// What a program did otherwise than the judge, in words.
#[derive(Debug)]
pub enum Difference {
    /// It can't be run.
    NotStarted(String),
    /// Its listing ended too early: how it ended then tells more.
    Ended(String),
    Other(String),
}

impl Display for Difference {
    fn fmt(&self, f: &mut Formatter) -> fmt::Result {
        let (Difference::NotStarted(told) | Difference::Ended(told) | Difference::Other(told)) =
            self;
        f.write_str(told)
    }
}

impl From<io::Error> for Difference {
    fn from(error: io::Error) -> Self {
        Difference::Other(plain(&error))
    }
}

/// Plays a script by the program and by the judge. `write` writes the script, which is cut into
/// portions by the seed; `each` is handed every line that is listed alike, its number and report.
pub fn compare(
    program: &mut Command,
    seed: u64,
    write: impl FnOnce(&mut Feed) -> io::Result<()> + Send,
    each: impl FnMut(u64, &[u8], &Report),
) -> Result<(), Difference> {
    compare_within(PATIENCE, program, seed, write, each)
}

fn compare_within(
    patience: Duration,
    program: &mut Command,
    seed: u64,
    write: impl FnOnce(&mut Feed) -> io::Result<()> + Send,
    mut each: impl FnMut(u64, &[u8], &Report),
) -> Result<(), Difference> {
    let pipes = program.stdin(Stdio::piped()).stdout(Stdio::piped());
    let started = pipes.stderr(Stdio::piped()).spawn();
    let mut child = started.map_err(|error| not_started(program, &error))?;
    let (feed, script) = feed(seed, child.stdin.take().expect("a pipe"));
    let listing = BufReader::new(child.stdout.take().expect("a pipe"));
    let complaints = child.stderr.take().expect("a pipe");
    let lines = &AtomicU64::new(0);
    let (open, closed) = mpsc::channel::<()>();
    thread::scope(|scope| {
        let feeding = scope.spawn(|| not_fed(feed, write));
        let listening = scope.spawn(|| complaint(complaints));
        let watching = scope.spawn(|| bad_end(child, patience, lines, closed));
        // This call closes the script and the listing, which ends the feed and then the program.
        let compared = compare_listings(script, listing, |number, line, report| {
            lines.store(number, Ordering::Relaxed);
            each(number, line, report);
        });
        let not_fed = feeding.join().expect("the feed ends");
        let mut wrong = vec![match &compared {
            Ok(()) => not_fed,
            Err(difference) => Some(difference.to_string()),
        }];
        wrong.push(listening.join().expect("the complaints end")?);
        drop(open);
        wrong.push(watching.join().expect("the watch ends")?);
        match compared {
            Ok(()) | Err(Difference::Ended(_)) => nothing_wrong(wrong),
            // It has then lost its reader, and may say so.
            Err(difference) => Err(difference),
        }
    })
}

fn nothing_wrong(wrong: Vec<Option<String>>) -> Result<(), Difference> {
    let wrong: Vec<String> = wrong.into_iter().flatten().collect();
    if wrong.is_empty() {
        return Ok(());
    }
    Err(Difference::Other(wrong.join("\n  ")))
}

fn not_started(program: &Command, error: &io::Error) -> Difference {
    let name = named(program.get_program());
    Difference::NotStarted(format!("{name}: {}", plain(error)))
}

fn compare_listings(
    script: impl BufRead,
    mut listing: impl BufRead,
    mut each: impl FnMut(u64, &[u8], &Report),
) -> Result<(), Difference> {
    let mut listed = Vec::new();
    let mut judged = format!("{HEADER}\n").into_bytes();
    next_listed(&mut listing, &mut listed)?;
    if listed != judged {
        return Err(differs("the header", &judged, &listed));
    }
    let mut number = 0;
    script::run(script, |line, report| {
        number += 1;
        judged.clear();
        script::write_report(&mut judged, number, report)?;
        next_listed(&mut listing, &mut listed)?;
        if listed != judged {
            let place = format!("line {number}\n  script   {}", script::shown(line));
            return Err(differs(&place, &judged, &listed));
        }
        each(number, line, report);
        Ok(())
    })?;
    next_listed(&mut listing, &mut listed)?;
    if !listed.is_empty() {
        return Err(differs("after the last line", b"", &listed));
    }
    Ok(())
}

/// The listing's next line with its newline; empty at the end.
fn next_listed(listing: &mut impl BufRead, line: &mut Vec<u8>) -> io::Result<()> {
    line.clear();
    let mut bounded = listing.by_ref().take(LONGEST_LISTED as u64);
    bounded.read_until(b'\n', line)?;
    Ok(())
}

fn differs(place: &str, judged: &[u8], listed: &[u8]) -> Difference {
    let ended = !listed.ends_with(b"\n") && listed.len() < LONGEST_LISTED;
    let (judged, program) = (shown(judged), shown(listed));
    let told = format!("{place}\n  judge    {judged}\n  program  {program}");
    if ended {
        Difference::Ended(told)
    } else {
        Difference::Other(told)
    }
}

fn shown(line: &[u8]) -> String {
    match line.strip_suffix(b"\n") {
        Some(line) => line.escape_ascii().to_string(),
        None if line.is_empty() => "(nothing)".to_string(),
        None => format!("{} (no newline)", line.escape_ascii()),
    }
}

fn not_fed(feed: Feed, write: impl FnOnce(&mut Feed) -> io::Result<()>) -> Option<String> {
    let error = feed.whole(write).err()?;
    let error = plain(&error);
    Some(format!("the script was not taken to its end: {error}"))
}

/// What comes on standard error. It is read to its end, so that the program never waits for that.
fn complaint(mut complaints: impl Read) -> io::Result<Option<String>> {
    let mut said = Vec::new();
    let mut bounded = complaints.by_ref().take(LONGEST_COMPLAINT);
    bounded.read_to_end(&mut said)?;
    io::copy(&mut complaints, &mut io::sink())?;
    let told = format!("standard error: {}", said.escape_ascii());
    Ok(Some(told).filter(|_| !said.is_empty()))
}

/// Waits until the program's streams are closed and it has ended, and says how if not well. One
/// that has stopped is ended.
fn bad_end(
    mut child: Child,
    patience: Duration,
    lines: &AtomicU64,
    closed: Receiver<()>,
) -> io::Result<Option<String>> {
    let mut seen = 0;
    let mut stopped = "";
    while closed.recv_timeout(patience) == Err(RecvTimeoutError::Timeout) {
        let listed = lines.load(Ordering::Relaxed);
        if listed == seen {
            child.kill()?;
            stopped = "it had stopped: ";
        }
        seen = listed;
    }
    let status = child.wait()?;
    let told = format!("{stopped}the program ended with {status}");
    Ok(Some(told).filter(|_| !status.success()))
}

#[cfg(test)]
mod tests {
    use std::io::Write;

    use super::*;

    /// Compares a program in awk that does not read its script, of 100,000 times M.
    fn told_of(program: &str) -> String {
        let mut awk = Command::new("awk");
        awk.arg(format!("BEGIN {{ print \"{HEADER}\"; {program} }}"));
        let patience = Duration::from_secs(1);
        let write = |feed: &mut Feed| feed.write_all(&b"M\n".repeat(100_000));
        let told = compare_within(patience, &mut awk, 1, write, |_, _, _| ());
        told.expect_err("a difference").to_string()
    }

    #[test]
    fn a_program_that_has_stopped_is_ended() {
        let told = told_of("while (1) n++");
        assert!(told.contains("  program  (nothing)"), "{told}");
        assert!(told.contains("it had stopped"), "{told}");
    }

    /// It waits for its reader, the reader for the script, and the script for the program.
    #[test]
    fn a_program_that_lists_what_it_has_not_read_is_ended() {
        let told = told_of("while (1) print ++n \",7,0,0,0,0\"");
        assert!(told.contains("  script   M"), "{told}");
        assert!(told.contains("it had stopped"), "{told}");
    }
}
