//! The scripts that programs are measured with: as long as is told, and what their names say.

use std::io;

use judge::node::{Event, Operation, Report, Standing, Trap};
use judge::program::{first_lines, tested_lines, Measured, TESTED_TIMES};
use judge::script;

const LINES: usize = 1_000_000;

fn measured() -> Vec<Measured> {
    Measured::scripts(None).expect("no file is read")
}

#[test]
fn each_script_has_a_million_lines() {
    let names = measured().into_iter().map(|Measured { name, script }| {
        let lines = script.iter().filter(|&&byte| byte == b'\n').count();
        assert_eq!(lines, LINES, "{name}");
        name
    });
    assert!(names.eq([
        "mixed",
        "swap",
        "switches",
        "S, A, D",
        "E, direct",
        "E, buffered",
        "C, no mail",
        "C, queue full"
    ]));
}

#[test]
fn the_first_lines_end_with_their_newlines() {
    assert_eq!(first_lines(b"M\nD\nS,1", 2), b"M\nD\n");
    assert_eq!(first_lines(b"M\nD\nS,1", 3), b"M\nD\n");
    assert_eq!(first_lines(b"M\nD\nS,1", 1), b"M\n");
    assert_eq!(first_lines(b"M", 1), b"");
}

#[test]
fn the_lines_that_are_tested_are_not_too_many() {
    let few = b"M\nD\nS,1";
    assert_eq!(tested_lines(few), b"M\nD\n");
    assert_eq!(tested_lines(&b"M\n".repeat(4097)), b"M\n".repeat(4096));
    let long = [[b'M'; 127].as_slice(), b"\n"].concat();
    assert_eq!(tested_lines(&long.repeat(513)), long.repeat(512));
    assert_eq!(tested_lines(&[b'M'; 70_000]), b"");
}

fn named(name: &str) -> Vec<u8> {
    let mut scripts = measured().into_iter();
    let named = scripts.find(|measured| measured.name == name);
    named.expect("a script of this name").script
}

/// Each message is direct, and S finds its group running but for the first time.
#[test]
fn the_lines_in_turn_meet_no_switch_and_no_buffer() {
    let script = named("S, A, D");
    assert!(script.starts_with(b"S,1\nA,1,7\nD\nS,1\n"));
    script::run(script.as_slice(), |line, report| {
        assert!(report.accepted(), "{}", line.escape_ascii());
        assert_eq!((report.trap, report.moved), (Trap::None, 0));
        Ok::<(), io::Error>(())
    })
    .expect("memory is read without error");
}

/// Behind so many lines a script has one operation alone, which `is_one` knows, and whose reports it looks
/// at; also where its first lines are played again and again on one memory.
fn alone(name: &str, before: usize, is_one: impl Fn(Operation, &Report) -> bool) {
    let count = |script: &[u8]| {
        let mut count = 0;
        script::run(script, |line, report| {
            count += usize::from(is_one(script::read(line), report));
            Ok::<(), io::Error>(())
        })
        .expect("memory is read without error");
        count
    };
    let script = named(name);
    assert_eq!(count(&script), LINES - before, "{name}");
    let first = tested_lines(&script);
    let repeated = count(&first.repeat(TESTED_TIMES));
    assert_eq!(repeated, TESTED_TIMES * count(first), "{name}");
}

#[test]
fn e_alone_reads_where_its_name_says() {
    for (name, before, standing) in [
        ("E, direct", 2, Standing::Queued),
        ("E, buffered", 3, Standing::FirstPlace),
    ] {
        alone(name, before, |operation, report| {
            let Operation::MessageWord { index } = operation else {
                return false;
            };
            assert_eq!(report.events, [Event::WordRead(standing)]);
            assert_eq!(report.value, 11 + index);
            true
        });
    }
}

#[test]
fn c_alone_finds_what_its_name_says() {
    let found: [(&str, usize, &[Event]); 2] = [
        ("C, no mail", 1, &[Event::NoMail]),
        ("C, queue full", 17, &[Event::OwnMail, Event::MailQueued]),
    ];
    for (name, before, found) in found {
        alone(name, before, |operation, report| {
            let is_turn = operation == Operation::Turn;
            assert!(!is_turn || report.events == found, "{name}");
            is_turn
        });
    }
}
