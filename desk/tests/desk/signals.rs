//! Signals that ask for the end: what stands in the folder then, and how the desk ends.

use std::ffi::c_int;
use std::fs;
use std::io::{Read, Write};
use std::os::fd::AsRawFd;
use std::path::Path;
use std::process::{Child, ChildStdout, Command};
use std::thread;
use std::time::Duration;

use crate::support::{after, bytes, command, ended_by, failed, piped, Folder, Talk, DESK, SCRIPT};

const SIGHUP: c_int = 1;
const SIGINT: c_int = 2;
const SIGPIPE: c_int = 13;
const SIGTERM: c_int = 15;
const ASKING: [c_int; 3] = [SIGHUP, SIGINT, SIGTERM];

const F_SETPIPE_SZ: c_int = 1031;
const FIONREAD: u64 = 0x541b;
/// A pipe of two pages: the header takes the first, where nothing else may go.
const PAGE: c_int = 4096;
const PIPE: c_int = 2 * PAGE;

extern "C" {
    fn kill(process: c_int, signal: c_int) -> c_int;
    fn fcntl(descriptor: c_int, command: c_int, ...) -> c_int;
    fn ioctl(descriptor: c_int, request: u64, ...) -> c_int;
}

fn send(child: &Child, signal: c_int) {
    // A plain call.
    assert_eq!(unsafe { kill(child.id() as c_int, signal) }, 0);
}

const KEEP: &[&str] = &["--keep"];

/// A file that is there already, and one that isn't yet.
fn files() -> [Option<Vec<u8>>; 2] {
    [None, Some(bytes(&after("")))]
}

fn put(file: &Path, before: &Option<Vec<u8>>) {
    match before {
        Some(bytes) => fs::write(file, bytes).unwrap(),
        None => drop(fs::remove_file(file)),
    }
}

#[test]
fn the_file_is_as_it_was() {
    let folder = Folder::new("as_it_was");
    let file = folder.path("node");
    for (signal, before) in ASKING
        .iter()
        .flat_map(|&s| files().map(|before| (s, before)))
    {
        put(&file, &before);
        let mut talk = Talk::begin(&file);
        talk.plays();
        send(&talk.child, signal);
        ended_by(&talk.end_later(), signal);
        assert_eq!(fs::read(&file).ok(), before);
        assert_eq!(folder.names().len(), before.iter().len());
    }
}

#[test]
fn the_lines_played_stay() {
    let folder = Folder::new("the_lines_played_stay");
    let file = folder.path("node");
    for (signal, before) in ASKING
        .iter()
        .flat_map(|&s| files().map(|before| (s, before)))
    {
        put(&file, &before);
        let mut talk = Talk::by(&mut command(KEEP, &file));
        talk.plays();
        // A line that has begun is none.
        talk.say(b"S,2");
        send(&talk.child, signal);
        ended_by(&talk.end_later(), signal);
        assert_eq!(fs::read(&file).unwrap(), bytes(&after(SCRIPT)));
        assert_eq!(folder.names(), ["node"]);
    }
}

/// Where no line was played there is nothing to keep.
#[test]
fn nothing_played() {
    let folder = Folder::new("nothing_played");
    let talk = Talk::by(&mut command(KEEP, &folder.path("node")));
    send(&talk.child, SIGINT);
    ended_by(&talk.end_later(), SIGINT);
    assert!(folder.names().is_empty());
}

/// As `nohup` starts it.
#[test]
fn one_that_is_ignored_stays_so() {
    let folder = Folder::new("ignored");
    let file = folder.path("node");
    let mut ignoring = Command::new("env");
    ignoring.args(["--ignore-signal=HUP", DESK]).arg(&file);
    let mut talk = Talk::by(&mut ignoring);
    talk.plays();
    send(&talk.child, SIGHUP);
    thread::sleep(Duration::from_millis(50));
    assert!(talk.end().status.success());
    assert_eq!(fs::read(&file).unwrap(), bytes(&after(SCRIPT)));
}

/// Each of these lines leaves another memory; what they list is more than a pipe holds.
fn arrivals() -> String {
    (0..768).map(|word| format!("A,1,{word}\n")).collect()
}

/// A desk that has played them, and waits for somebody to read on.
fn held_up(options: &[&str], file: &Path) -> (Child, ChildStdout) {
    let mut child = piped(&mut command(options, file));
    let output = child.stdout.take().expect("the output is piped");
    let descriptor = output.as_raw_fd();
    // It makes the pipe smaller.
    assert_eq!(unsafe { fcntl(descriptor, F_SETPIPE_SZ, PIPE) }, PIPE);
    let mut input = child.stdin.take().expect("the input is piped");
    input
        .write_all(arrivals().as_bytes())
        .expect("the desk reads");
    let mut filled: c_int = 0;
    for _ in 0..20_000 {
        // It asks how many bytes wait in the pipe.
        assert_eq!(unsafe { ioctl(descriptor, FIONREAD, &mut filled) }, 0);
        if filled >= PAGE {
            break;
        }
        thread::sleep(Duration::from_millis(1));
    }
    assert!(filled >= PAGE, "{filled} bytes");
    child.stdin = Some(input);
    (child, output)
}

/// The first lines of these.
fn first(lines: usize) -> Vec<u8> {
    let script: Vec<_> = arrivals().lines().take(lines).map(str::to_string).collect();
    bytes(&after(&script.join("\n")))
}

/// The memory is the one after the lines that stand whole in the listing.
#[test]
fn while_the_listing_waits() {
    let folder = Folder::new("while_the_listing_waits");
    let file = folder.path("node");
    for signal in ASKING {
        put(&file, &None);
        let (child, mut output) = held_up(KEEP, &file);
        send(&child, signal);
        ended_by(&child.wait_with_output().unwrap(), signal);
        let mut listing = String::new();
        output.read_to_string(&mut listing).unwrap();
        let lines = listing.matches('\n').count() - 1;
        assert!((200..768).contains(&lines), "{lines}");
        assert!(fs::read(&file).unwrap() == first(lines));
        let (child, _output) = held_up(&[], &file);
        send(&child, signal);
        ended_by(&child.wait_with_output().unwrap(), signal);
        assert!(fs::read(&file).unwrap() == first(lines));
        assert_eq!(folder.names(), ["node"]);
    }
}

/// A reader that goes away ends it too: the lines that were written by then stay.
#[test]
fn a_reader_that_goes_away() {
    let folder = Folder::new("kept_reader_goes_away");
    let file = folder.path("node");
    let (child, output) = held_up(KEEP, &file);
    drop(output);
    ended_by(&child.wait_with_output().unwrap(), SIGPIPE);
    let kept = fs::read(&file).unwrap();
    let lines = (200..768).find(|&lines| kept == first(lines));
    assert!(lines.is_some());
    assert_eq!(folder.names(), ["node"]);
}

/// What can't be kept is told, and is the status.
#[test]
fn not_kept() {
    let folder = Folder::new("not_kept");
    let file = folder.path("node");
    let mut talk = Talk::by(&mut command(KEEP, &file));
    talk.plays();
    fs::write(&file, "another").unwrap();
    send(&talk.child, SIGINT);
    failed(&talk.end_later(), "node appeared while the desk was open");
    assert_eq!(folder.names(), ["node", "node.desk-1"]);
}
