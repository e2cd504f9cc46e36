//! The script and its listing: long lines, a conversation, and streams that fail.

use std::fs::{self, File};
use std::io::Write;
use std::process::{Command, Stdio};

use crate::support::{
    after, bytes, command, desk, ended_by, failed, listed, piped, Folder, Talk, DESK, LISTING,
    SCRIPT,
};

const SIGPIPE: i32 = 13;

#[test]
fn the_last_line_may_lack_its_newline() {
    let folder = Folder::new("no_last_newline");
    listed(&desk(&folder.path("node"), SCRIPT.trim_end()), LISTING);
    assert_eq!(
        fs::read(folder.path("node")).unwrap(),
        bytes(&after(SCRIPT))
    );
}

/// Around 128 bytes, around the sizes of buffers, and far beyond; each of them one line.
#[test]
fn lines_of_any_length_and_any_bytes() {
    let folder = Folder::new("lines_of_any_length");
    for length in [127, 128, 129, 130, 257, 8191, 8192, 8193, 65536, 3_000_000] {
        // An arrival of too many words; its first 128 bytes, too, could be read.
        let mut line = "A,01".to_string() + &",7".repeat((length - 4) / 2);
        line += &"7"[..length - line.len()];
        let answer = if length > 128 { 2 } else { 4 };
        let script = [line.as_bytes(), b"\n\0\n\xff\r\n\nS,1\n", line.as_bytes()].concat();
        let listing = format!(
            "line,answer,value,trap,upcall,moved\n1,{answer},0,0,0,0\n2,2,0,0,0,0\n3,2,0,0,0,0\n\
             4,2,0,0,0,0\n5,0,0,0,0,0\n6,{answer},0,0,0,0\n"
        );
        listed(&desk(&folder.path("node"), script), &listing);
    }
}

/// Each line is answered while the program waits for the next, also one that comes in pieces.
#[test]
fn a_conversation() {
    let folder = Folder::new("a_conversation");
    let mut talk = Talk::begin(&folder.path("node"));
    for (line, answer) in SCRIPT.lines().zip(LISTING.lines().skip(1)) {
        for byte in line.bytes() {
            talk.say(&[byte]);
        }
        talk.say(b"\n");
        talk.answered(answer);
    }
    assert!(!folder.path("node").exists());
    assert!(talk.end().status.success());
    assert_eq!(
        fs::read(folder.path("node")).unwrap(),
        bytes(&after(SCRIPT))
    );
}

/// A folder with a file in it, and what must stand there however the streams fail.
fn with_failing(test: &str, input: fn() -> Stdio, output: fn() -> Stdio, message: &str) {
    let folder = Folder::new(test);
    let before = bytes(&after("S,2\n"));
    fs::write(folder.path("old"), &before).unwrap();
    for name in ["old", "new"] {
        let ended = Command::new(DESK)
            .arg(folder.path(name))
            .stdin(input())
            .stdout(output())
            .stderr(Stdio::piped())
            .output()
            .unwrap();
        failed(&ended, message);
    }
    assert_eq!(fs::read(folder.path("old")).unwrap(), before);
    assert_eq!(folder.names(), ["old"]);
}

/// The script as a file that is read to its end.
fn script() -> Stdio {
    let mut child = Command::new("printf")
        .arg(SCRIPT)
        .stdout(Stdio::piped())
        .spawn()
        .unwrap();
    let output = child.stdout.take().unwrap();
    child.wait().unwrap();
    output.into()
}

#[test]
fn a_full_device() {
    let full = || {
        File::options()
            .write(true)
            .open("/dev/full")
            .unwrap()
            .into()
    };
    with_failing("a_full_device", script, full, "standard output: No space");
}

#[test]
fn output_opened_for_reading() {
    let wrong = || File::open("/dev/null").unwrap().into();
    with_failing("output_for_reading", script, wrong, "standard output: Bad");
}

#[test]
fn input_opened_for_writing() {
    let wrong = || {
        File::options()
            .write(true)
            .open("/dev/null")
            .unwrap()
            .into()
    };
    with_failing(
        "input_for_writing",
        wrong,
        Stdio::null,
        "standard input: Bad",
    );
}

#[test]
fn a_directory_as_input() {
    let directory = || File::open("/").unwrap().into();
    with_failing(
        "a_directory_as_input",
        directory,
        Stdio::null,
        "standard input: Is a dir",
    );
}

/// Nobody has seen the listing's end, so the file does not change either.
#[test]
fn a_reader_that_goes_away() {
    let folder = Folder::new("a_reader_that_goes_away");
    let mut child = piped(&mut command(&[], &folder.path("node")));
    drop(child.stdout.take());
    let mut input = child.stdin.take().unwrap();
    // A process that another test starts may have the reader's end for a moment.
    while input.write_all(SCRIPT.as_bytes()).is_ok() {}
    drop(input);
    ended_by(&child.wait_with_output().unwrap(), SIGPIPE);
    assert!(folder.names().is_empty());
}
