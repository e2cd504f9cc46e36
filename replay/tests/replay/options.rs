//! The options, in any order, each at most once.

use std::ffi::OsStr;
use std::os::unix::ffi::OsStrExt;
use std::process::{Command, Stdio};

use replay::page::TITLE;

use crate::support::{file, refused, refused_in_a_line, replay, whole_case, written, Data, REPLAY};

#[test]
fn in_any_order() {
    let script = whole_case();
    let page = written(&replay(
        &["--title", "t", "--from", "2", "--to", "5"],
        &script,
    ));
    assert_eq!(
        page,
        written(&replay(
            &["--to", "5", "--title", "t", "--from", "002"],
            &script
        ))
    );
    assert_eq!(Data::of(&page).named("title"), "t");
}

#[test]
fn what_can_not_be_understood() {
    for (arguments, message) in [
        (&["--bogus"] as &[&str], "--bogus is no option"),
        (&["whole-case.script"], "whole-case.script is no option"),
        (&["--from"], "--from lacks its N"),
        (&["--to", "--from", "1"], "--to lacks its N"),
        (&["--title"], "--title lacks its TEXT"),
        (&["--title", ""], "--title lacks its TEXT"),
        (&["--on"], "--on lacks its NODE"),
        (&["--on", "--empty"], "--on lacks its NODE"),
        (&["--check"], "--check lacks its FILE.html"),
        (&["--from", "1", "--from", "1"], "--from stands twice"),
        (&["--empty", "--empty"], "--empty stands twice"),
        (
            &["--empty", "--title", "t"],
            "--check and --empty are taken alone",
        ),
        (
            &["--check", "a", "--empty"],
            "--check and --empty are taken alone",
        ),
        (
            &["--check", "a", "--from", "1"],
            "--check and --empty are taken alone",
        ),
        (&["--check", "a", "b"], "b is no option"),
        (&["--help", "--help"], "--help is no option"),
        (
            &["--from", "0"],
            "--from takes the number of a line, from 1 on",
        ),
        (
            &["--from", "+1"],
            "--from takes the number of a line, from 1 on",
        ),
        (
            &["--to", "1x"],
            "--to takes the number of a line, from 1 on",
        ),
        (
            &["--to", "99999999999999999999"],
            "--to takes the number of a line, from 1 on",
        ),
        (&["--from", "5", "--to", "4"], "--to 4 is before --from 5"),
        (&["\n\u{1b}"], "\\x0a\\x1b is no option"),
    ] {
        let output = replay(arguments, b"S,1\n");
        refused(&output, 2, message);
        assert!(String::from_utf8_lossy(&output.stderr).contains("\nusage: replay"));
    }
}

#[test]
fn behind_the_end() {
    let script = whole_case();
    let page = written(&replay(
        &["--from", "13", "--to", "18446744073709551615"],
        &script,
    ));
    assert_eq!(Data::of(&page).named("lines"), "13 13 13");
    refused_in_a_line(
        &replay(&["--from", "14"], &script),
        2,
        "--from 14 is behind the end: 13 lines",
    );
    refused_in_a_line(
        &replay(&["--from", "2"], b""),
        2,
        "--from 2 is behind the end: 0 lines",
    );
    let page = written(&replay(&["--from", "1"], b""));
    assert_eq!(Data::of(&page).named("lines"), "1 0 0");
}

#[test]
fn more_lines_than_are_shown() {
    let script = "M\n".repeat(31_000).into_bytes();
    let most = "--from and --to choose at most 20,000";
    refused_in_a_line(&replay(&[], &script), 2, &format!("31,000 lines; {most}"));
    refused_in_a_line(
        &replay(&["--from", "10000", "--to", "30000"], &script),
        2,
        &format!("20,001 lines; {most}"),
    );
    let page = written(&replay(&["--from", "11001"], &script));
    assert_eq!(Data::of(&page).named("lines"), "11001 31000 31000");
}

#[test]
fn titles() {
    let titled = |title: &[u8]| {
        let mut command = Command::new(REPLAY);
        let output = command
            .arg("--title")
            .arg(OsStr::from_bytes(title))
            .stdin(Stdio::null())
            .output()
            .unwrap();
        written(&output)
    };
    for (title, data, head) in [
        (b"--from" as &[u8], "--from", "--from"),
        (
            "Übung 3 → 4".as_bytes(),
            "\\xc3\\x9cbung 3 \\xe2\\x86\\x92 4",
            "Übung 3 → 4",
        ),
        (b"a\xffb\nc\\", "a\\xffb\\x0ac\\x5c", "a\\xffb\\x0ac\\x5c"),
        (b"<b> & |", "\\x3cb\\x3e \\x26 \\x7c", "&lt;b&gt; &amp; |"),
    ] {
        let page = titled(title);
        assert_eq!(Data::of(&page).named("title"), data);
        assert_eq!(TITLE.of(&page), Ok(head));
    }
    assert_eq!(
        Data::of(&written(&replay(&[], b""))).named("title"),
        "a script"
    );
}

/// A page is not checked, and a file is not looked for, before the call is understood.
#[test]
fn a_file_that_is_not_there() {
    let nowhere = file("nowhere");
    let nowhere = nowhere.to_str().unwrap();
    let message = format!("{nowhere}: No such file or directory");
    refused_in_a_line(&replay(&["--check", nowhere], b""), 1, &message);
    refused_in_a_line(&replay(&["--on", nowhere], b""), 1, &message);
    refused(
        &replay(&["--on", nowhere, "--to", "0"], b""),
        2,
        "--to takes the number of a line, from 1 on",
    );
}
