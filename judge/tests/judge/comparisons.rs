//! What is compared with the judge: `compare` and `bench` as they are called, and what they refuse.

use std::fs;
use std::io::{self, Read, Write};
use std::os::unix::fs::{symlink, PermissionsExt};
use std::path::{Path, PathBuf};
use std::process::{Command, Output, Stdio};
use std::thread;

use judge::comparison::compare;
use judge::feed::{feed, Feed};
use judge::generator::Flavour;

use crate::support::listing;

const JUDGE: &str = env!("CARGO_BIN_EXE_judge");

fn script() -> Vec<u8> {
    let mixed = Flavour::named("mixed").expect("a flavour of this name");
    mixed.script(1, 60_000)
}

/// What a shell command that has the judge's program at `$0` does otherwise than the judge.
fn difference(command: &str) -> Option<String> {
    let script = script();
    let mut shell = Command::new("sh");
    shell.args(["-c", command, JUDGE]);
    let mut lines = 0;
    let compared = compare(
        &mut shell,
        1,
        |feed| feed.write_all(&script),
        |number, _, _| lines = number,
    );
    assert!(compared.is_err() || lines == 60_000);
    compared.err().map(|difference| difference.to_string())
}

#[test]
fn the_same_listing_has_no_difference() {
    assert_eq!(difference("exec \"$0\""), None);
}

#[test]
fn a_program_may_keep_its_listing_to_the_end() {
    assert_eq!(difference("all=$(\"$0\"); echo \"$all\""), None);
}

/// Each wrong program, and what is told of it.
#[test]
fn whatever_a_program_does_otherwise_is_told() {
    let wrong = [
        ("cat", "the header\n  judge    line,"),
        ("exit 0", "the header"),
        ("\"$0\" | sed '20000s/$/0/'", "line 19999\n  script   "),
        ("\"$0\" | sed 's/$/\\r/'", "moved\\r"),
        ("\"$0\" | sed '20000d'", "line 19999\n"),
        ("\"$0\" | sed '$d'", "line 60000\n"),
        ("\"$0\" | head -c -1", "(no newline)"),
        ("\"$0\" | head -n 20000", "line 20000\n"),
        (
            "\"$0\"; echo more",
            "after the last line\n  judge    (nothing)\n  program  more",
        ),
        ("\"$0\"; echo", "after the last line"),
        ("\"$0\"; echo warning >&2", "standard error: warning"),
        ("\"$0\"; exit 3", "ended with exit status: 3"),
        (
            "\"$0\" | head -c 1000; echo lost >&2; exit 3",
            "ended with exit status: 3",
        ),
        ("yes | tr -d '\\n'", "yyyy (no newline)"),
    ];
    for (command, part) in wrong {
        let told = difference(command).unwrap_or_else(|| panic!("no difference: {command}"));
        assert!(told.contains(part), "{command}: {told}");
    }
}

/// The listing is right, but the program had it from elsewhere.
#[test]
fn a_program_that_does_not_read_to_the_end_is_told() {
    // Long lines: the script does not go into a pipe, the listing does.
    let script = format!("{}\n", "x".repeat(1000)).repeat(1000);
    let path = scratch("unread").join("listing");
    fs::write(&path, listing(script.as_bytes())).expect("written");
    let mut cat = Command::new("cat");
    let write = |feed: &mut Feed| feed.write_all(script.as_bytes());
    let told = compare(cat.arg(path), 1, write, |_, _, _| ());
    let told = told.expect_err("a difference").to_string();
    assert!(told.contains("not taken to its end"), "{told}");
}

#[test]
fn a_program_that_is_not_there_is_told() {
    let mut absent = Command::new("/no/such/program");
    let told = compare(&mut absent, 1, |_| Ok(()), |_, _, _| ()).expect_err("no program");
    let absent = "/no/such/program: No such file or directory";
    assert_eq!(told.to_string(), absent);
}

#[test]
fn a_script_that_cannot_be_written_is_told() {
    let unwritten = |_: &mut _| Err(io::Error::other("no script"));
    let told = compare(&mut Command::new(JUDGE), 1, unwritten, |_, _, _| ());
    assert!(told
        .expect_err("no script")
        .to_string()
        .contains("no script"));
}

#[test]
fn the_judge_and_the_program_are_fed_the_same() {
    let script = script();
    let mut cat = Command::new("cat");
    let mut child = cat
        .stdin(Stdio::piped())
        .stdout(Stdio::piped())
        .spawn()
        .expect("the program runs");
    let (feed, mut fed) = feed(7, child.stdin.take().expect("a pipe"));
    let (mut judged, mut played) = (Vec::new(), Vec::new());
    thread::scope(|scope| {
        scope.spawn(|| feed.whole(|feed| feed.write_all(&script)).expect("fed"));
        let mut output = child.stdout.take().expect("a pipe");
        output.read_to_end(&mut played).expect("read");
        fed.read_to_end(&mut judged).expect("read");
    });
    child.wait().expect("the program ends");
    assert!(judged == script && played == script);
}

/// An empty folder of its own for a test.
fn scratch(name: &str) -> PathBuf {
    let folder = Path::new(env!("CARGO_TARGET_TMPDIR")).join(name);
    if folder.exists() {
        fs::remove_dir_all(&folder).expect("removed");
    }
    fs::create_dir_all(&folder).expect("made");
    folder
}

/// A project's folder: the programs that stand for the wrapper and for what it runs.
fn project(name: &str, wrapper: &str, fugu: &str) -> PathBuf {
    let folder = scratch(name);
    for (path, program) in [("bin", wrapper), ("programs/target/release", fugu)] {
        let path = folder.join(path);
        fs::create_dir_all(&path).expect("made");
        symlink(program, path.join("fugu")).expect("linked");
    }
    folder
}

fn call(program: &str, project: &Path, arguments: &[&str]) -> Output {
    Command::new(program)
        .arg(project)
        .args(arguments)
        .output()
        .expect("the program runs")
}

fn compared(project: &Path, arguments: &[&str]) -> Output {
    call(env!("CARGO_BIN_EXE_compare"), project, arguments)
}

fn benched(project: &Path, arguments: &[&str]) -> Output {
    call(env!("CARGO_BIN_EXE_bench"), project, arguments)
}

fn text(bytes: &[u8]) -> &str {
    std::str::from_utf8(bytes).expect("text")
}

#[test]
fn compare_tells_what_was_met() {
    let output = compared(Path::new("."), &["4000", "1", JUDGE]);
    assert!(output.status.success(), "{}", text(&output.stderr));
    let told = text(&output.stdout);
    assert!(told.starts_with("answer"));
    assert!(told.ends_with("\n56000 lines compared\n"));
    assert_eq!(told.lines().count(), 1 + 14 + 1 + 3 + 3 + 6 + 7 + 6 + 6 + 1);
    assert!(text(&output.stderr).contains("mixed: 4000 of 4000 lines"));
}

#[test]
fn compare_takes_few_lines_too() {
    for lines in ["0", "1", "20"] {
        let output = compared(Path::new("."), &[lines, "1", JUDGE]);
        assert!(output.status.success(), "{}", text(&output.stderr));
    }
}

#[test]
fn compare_names_the_place_of_a_difference() {
    let output = compared(Path::new("."), &["100", "7", "cat"]);
    assert_eq!(output.status.code(), Some(1));
    assert!(output.stdout.is_empty());
    let told = text(&output.stderr);
    assert!(
        told.contains("flavour uniform, seed 7, the header"),
        "{told}"
    );
}

#[test]
fn compare_names_what_cannot_be_run() {
    for (program, name) in [("/nowhere", "/nowhere"), ("", "''")] {
        let no_program = compared(Path::new("."), &["100", "1", program]);
        assert_eq!(no_program.status.code(), Some(1));
        let told = format!("compare: {name}: No such file or directory\n");
        assert_eq!(text(&no_program.stderr), told);
    }
    let no_project = compared(Path::new("/nowhere"), &["100", "1"]);
    assert_eq!(no_project.status.code(), Some(1));
    let told = "compare: /nowhere/bin/fugu: No such file or directory\n";
    assert_eq!(text(&no_project.stderr), told);
}

#[test]
fn bench_names_what_cannot_be_read_or_run() {
    let project = project("bench-names", "/bin/true", JUDGE);
    let script = short_script(&project);
    let absent = "No such file or directory\n";
    for (arguments, told) in [
        (["--script", "/nowhere", JUDGE], "/nowhere"),
        (["--script", &script, "/nowhere"], "/nowhere"),
    ] {
        let output = benched(&project, &arguments);
        assert_eq!(output.status.code(), Some(1));
        assert_eq!(text(&output.stderr), format!("bench: {told}: {absent}"));
    }
}

/// A program that goes before it has read its script is told; the comparison itself goes on.
#[test]
fn compare_outlives_a_program_that_goes_away() {
    let output = compared(Path::new("."), &["100000", "1", "true"]);
    assert_eq!(output.status.code(), Some(1));
    assert!(text(&output.stderr).contains("the header"));
}

#[test]
fn compare_plays_the_projects_own_program() {
    let same = project("compare-same", "/bin/true", JUDGE);
    assert!(compared(&same, &["100", "1"]).status.success());
    let wrong = project("compare-wrong", "/bin/true", "/bin/cat");
    assert_eq!(compared(&wrong, &["100", "1"]).status.code(), Some(1));
    let unbuilt = project("compare-unbuilt", "/bin/false", JUDGE);
    assert_eq!(compared(&unbuilt, &["100", "1"]).status.code(), Some(1));
}

#[test]
fn compare_and_bench_tell_how_they_are_used() {
    for (program, called) in [
        ("compare", compared as fn(&Path, &[&str]) -> Output),
        ("bench", benched),
    ] {
        let usage = format!("usage: {program}");
        let wrong: &[&[&str]] = match program {
            "compare" => &[
                &[],
                &["1"],
                &["x", "1"],
                &["1", "-1"],
                &["1", "1", "a", "b"],
            ],
            _ => &[
                &["--what"],
                &["--script"],
                &["--script", "a", "--what"],
                &["--script", "a", "--instructions"],
                &["--instructions", "--what"],
            ],
        };
        for arguments in wrong {
            let misused = called(Path::new("."), arguments);
            assert_eq!(misused.status.code(), Some(2), "{program} {arguments:?}");
            assert!(misused.stdout.is_empty());
            assert!(text(&misused.stderr).contains(&usage));
        }
    }
}

/// A short script in a file of the project's folder.
fn short_script(project: &Path) -> String {
    let path = project.join("short.script");
    fs::write(&path, "S,1\nA,1,7\nD\nM").expect("written");
    path.to_str().expect("text").to_string()
}

#[test]
fn bench_tells_times_and_ratios() {
    let project = project("bench-plain", "/bin/true", JUDGE);
    let output = benched(&project, &["--script", &short_script(&project), JUDGE]);
    assert!(output.status.success(), "{}", text(&output.stderr));
    let told = text(&output.stdout);
    assert!(told.contains(": 4 lines, 13 bytes\n"), "{told}");
    for other in ["judge", JUDGE] {
        let ratio = format!(" times the time of {other}\n");
        assert!(told.contains(&ratio), "{told}");
    }
    assert!(told.contains("crates/tested/out/tested is not there"));
}

/// A program for the shell in a folder of the project.
fn shell_program(folder: &Path, name: &str, text: &str) -> String {
    let path = folder.join(name);
    fs::write(&path, format!("#!/bin/sh\n{text}\n")).expect("written");
    fs::set_permissions(&path, fs::Permissions::from_mode(0o755)).expect("made a program");
    path.to_str().expect("text").to_string()
}

/// A project whose tested program plays its script by the judge, so many times over.
fn tested_project(name: &str, times: u32) -> PathBuf {
    let project = project(name, "/bin/true", JUDGE);
    let text = format!(
        "script=$(cat)\nfor _ in $(seq {times}); do printf '%s\\n' \"$script\"; done | {JUDGE}"
    );
    let folder = project.join("crates/tested/out");
    fs::create_dir_all(&folder).expect("made");
    shell_program(&folder, "tested", &text);
    project
}

/// As they are, and with --test behind them where the memory is to be tested.
#[test]
fn bench_hands_a_program_its_arguments() {
    let project = tested_project("bench-arguments", 64);
    let other = noting_program(&project);
    let script = short_script(&project);
    let output = benched(&project, &["--script", &script, &other, "--order", "5"]);
    assert!(output.status.success(), "{}", text(&output.stderr));
    let told = text(&output.stdout);
    let called = fs::read_to_string(format!("{other}.called")).expect("it was called");
    for arguments in ["--order 5", "--order 5 --test"] {
        let ratio = format!(" times the time of {other} {arguments}\n");
        assert!(told.contains(&ratio), "{told}");
        // Once for its listing, fifteen times for its time.
        let calls = called.lines().filter(|line| *line == arguments);
        assert_eq!(calls.count(), 16, "{called}");
    }
}

/// The judge, whatever it is called with, which is written down.
fn noting_program(project: &Path) -> String {
    let text = format!("echo \"$@\" >>\"$0.called\"\nexec {JUDGE}");
    shell_program(project, "other", &text)
}

/// With a valgrind that counts 100 instructions for each of its arguments and each line, and 1000 more.
#[test]
fn bench_counts_instructions() {
    let project = project("bench-counts", "/bin/true", JUDGE);
    let text = "lines=$(wc -l)\necho \"==7== Collected : $((1000 + 100 * $# * lines))\" >&2";
    shell_program(&project, "valgrind", text);
    let (other, script) = (noting_program(&project), short_script(&project));
    let called = format!("--instructions --script {script} {other} --order 5");
    let output = counted(&project, &called);
    let expected = format!(
        "{script}: 3 lines\n   300.0 instructions a line  fugu\n   500.0 instructions a line  \
         {other} --order 5\nfugu takes 0.60 times the instructions of {other} --order 5\n"
    );
    assert_eq!(self::text(&output.stdout), expected);
    assert!(output.status.success());

    let listing = counted(&project, &format!("--instructions --script {script} cat"));
    assert_eq!(listing.status.code(), Some(1));
    shell_program(&project, "valgrind", "exit 1");
    let uncounted = counted(&project, &called);
    assert_eq!(uncounted.status.code(), Some(1));
    assert!(self::text(&uncounted.stderr).starts_with("bench: valgrind: exit status: 1"));
}

/// What bench does where the project's folder has the first valgrind.
fn counted(project: &Path, arguments: &str) -> Output {
    let path = std::env::var("PATH").expect("a path");
    Command::new(env!("CARGO_BIN_EXE_bench"))
        .arg(project)
        .args(arguments.split(' '))
        .env("PATH", format!("{}:{path}", project.display()))
        .output()
        .expect("the program runs")
}

#[test]
fn bench_measures_the_calls_that_test_the_memory() {
    let project = tested_project("bench-tested", 64);
    let output = benched(&project, &["--script", &short_script(&project)]);
    assert!(output.status.success(), "{}", text(&output.stderr));
    let told = text(&output.stdout);
    // The three lines that end with a newline.
    assert!(told.contains(": 192 lines, 768 bytes\n"), "{told}");
    assert!(told.contains("tested takes "));
}

#[test]
fn bench_refuses_another_listing() {
    let right = project("bench-right", "/bin/true", JUDGE);
    let other = benched(&right, &["--script", &short_script(&right), "cat"]);
    assert_eq!(other.status.code(), Some(1));
    assert!(text(&other.stderr).starts_with("bench: cat: the listing differs"));
    let wrong = project("bench-wrong", "/bin/true", "/bin/cat");
    let own = benched(&wrong, &["--script", &short_script(&wrong)]);
    assert_eq!(own.status.code(), Some(1));
    let short = tested_project("bench-short", 63);
    let own = benched(&short, &["--script", &short_script(&short)]);
    assert_eq!(own.status.code(), Some(1));
    // What another program does with --test is compared too: the judge takes no such argument.
    let tested = tested_project("bench-untested", 64);
    let other = benched(&tested, &["--script", &short_script(&tested), JUDGE]);
    assert_eq!(other.status.code(), Some(1));
    assert!(text(&other.stderr).contains(" --test: exit status: 2"));
}
