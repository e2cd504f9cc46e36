//! `judge`, `check-script` and `scripts` as they are called: streams, arguments, files and exit codes.

use std::fs;
use std::io::Write;
use std::os::unix::process::ExitStatusExt;
use std::path::{Path, PathBuf};
use std::process::{Command, Output, Stdio};

use judge::state;

use crate::support::{bytes, listing, memory_after};

/// The signal of a pipe without a reader.
const SIGPIPE: i32 = 13;

fn judge() -> Command {
    Command::new(env!("CARGO_BIN_EXE_judge"))
}

fn scripts(arguments: &str) -> Output {
    Command::new(env!("CARGO_BIN_EXE_scripts"))
        .args(arguments.split_whitespace())
        .output()
        .expect("the program runs")
}

/// Runs the judge on a script that comes through a pipe.
fn judged(script: &[u8]) -> Output {
    fed(&mut judge(), script)
}

fn fed(program: &mut Command, script: &[u8]) -> Output {
    let mut child = program
        .stdin(Stdio::piped())
        .stdout(Stdio::piped())
        .stderr(Stdio::piped())
        .spawn()
        .expect("the program runs");
    let mut input = child.stdin.take().expect("a pipe");
    std::thread::scope(|scope| {
        scope.spawn(move || input.write_all(script).expect("the judge reads to the end"));
        child.wait_with_output().expect("the program ends")
    })
}

fn text(bytes: &[u8]) -> &str {
    std::str::from_utf8(bytes).expect("text")
}

#[test]
fn judge_turns_a_script_into_its_listing() {
    for script in ["", "S,1\nA,1,7\nD\n", "S,1\nM", "\n"] {
        let output = judged(script.as_bytes());
        assert!(output.status.success());
        assert_eq!(text(&output.stdout), listing(script.as_bytes()));
        assert!(output.stderr.is_empty());
    }
}

#[test]
fn judge_reads_big_inputs_and_lines_of_any_length() {
    let mut script = b"S,1\n".repeat(200_000);
    script.extend(b"A,1,".repeat(5_000_000));
    script.extend(b"\nS,2");
    let output = judged(&script);
    assert!(output.status.success());
    let listed = text(&output.stdout);
    assert_eq!(listed.lines().count(), 1 + 200_002);
    assert!(listed.ends_with("\n200001,2,0,0,0,0\n200002,0,0,0,0,0\n"));
}

#[test]
fn judge_ends_quietly_when_its_reader_goes_away() {
    let mut child = judge()
        .stdin(Stdio::piped())
        .stdout(Stdio::piped())
        .stderr(Stdio::piped())
        .spawn()
        .expect("the program runs");
    drop(child.stdout.take());
    let mut input = child.stdin.take().expect("a pipe");
    // The judge may be gone before all is written.
    let _ = input.write_all(&b"S,1\n".repeat(100_000));
    drop(input);
    let output = child.wait_with_output().expect("the program ends");
    assert_eq!(output.status.signal(), Some(SIGPIPE));
    assert!(output.stderr.is_empty());
}

#[test]
fn judge_tells_errors_of_input_and_output() {
    let directory = std::fs::File::open(env!("CARGO_MANIFEST_DIR")).expect("a directory");
    let unread = judge().stdin(directory).output().expect("the program runs");
    assert_eq!(unread.status.code(), Some(1));
    let told = "judge: standard input: Is a directory\n";
    assert_eq!(text(&unread.stderr), told);

    if let Ok(full) = std::fs::File::create("/dev/full") {
        let unwritten = judge()
            .stdin(Stdio::null())
            .stdout(full)
            .output()
            .expect("the program runs");
        assert_eq!(unwritten.status.code(), Some(1));
        let told = "judge: standard output: No space left on device\n";
        assert_eq!(text(&unwritten.stderr), told);
    }
}

/// Every program that reads or writes, with a stream closed or open the other way only.
#[test]
fn a_stream_that_cannot_be_used_is_told_at_once() {
    let out = "standard output";
    let cases: [(&str, &str, &str); 12] = [
        ("judge", "<&-", "standard input"),
        ("judge", "0>/dev/null", "standard input"),
        ("judge", "</dev/null >&-", out),
        ("judge", "</dev/null 1</dev/null", out),
        ("judge", "--after <&-", "standard input"),
        ("judge", "--why 1 </dev/null >&-", out),
        ("judge", "--why --all 0>/dev/null", "standard input"),
        ("judge", "--help >&-", out),
        ("check-script", "<&-", "standard input"),
        ("check-script", "</dev/null >&-", out),
        ("scripts", "1 2 mixed >&-", out),
        ("compare", ". 0 1 cat >&-", out),
    ];
    for (program, call, stream) in cases {
        let told = format!("{program}: {stream}: Bad file descriptor\n");
        let ended = called(program, call);
        assert_eq!(ended, (String::new(), told, Some(1)), "{program} {call}");
    }
}

/// A program that a shell calls, with what stands behind its name.
fn called(program: &str, call: &str) -> Streams {
    let mut shell = Command::new("sh");
    let shell = shell.args(["-c", &format!("exec \"$0\" {call}"), path(program)]);
    streams(shell.output().expect("the shell runs"))
}

fn path(program: &str) -> &'static str {
    match program {
        "judge" => env!("CARGO_BIN_EXE_judge"),
        "scripts" => env!("CARGO_BIN_EXE_scripts"),
        "compare" => env!("CARGO_BIN_EXE_compare"),
        "bench" => env!("CARGO_BIN_EXE_bench"),
        _ => env!("CARGO_BIN_EXE_check-script"),
    }
}

#[test]
fn every_program_tells_its_help_and_version() {
    for program in ["judge", "scripts", "compare", "bench", "check-script"] {
        let (help, said, code) = called(program, "--help");
        assert!(help.starts_with(&format!("usage: {program} ")), "{help}");
        assert!(help.lines().all(|line| line.len() <= 102), "{help}");
        assert_eq!((said.as_str(), code), ("", Some(0)));
        assert_eq!(called(program, "-h").0, help);
        let (version, said, code) = called(program, "--version");
        let begun = format!(
            "{program} {}, proved with rattle",
            env!("CARGO_PKG_VERSION")
        );
        assert!(version.starts_with(&begun), "{version}");
        assert_eq!((said.as_str(), code), ("", Some(0)));
    }
}

#[test]
fn a_reader_that_has_gone_ends_scripts_quietly() {
    let mut scripts = Command::new(path("scripts"));
    let scripts = scripts.args(["1", "100000", "mixed"]);
    let scripts = scripts.stdout(Stdio::piped()).stderr(Stdio::piped());
    let mut child = scripts.spawn().expect("the program runs");
    drop(child.stdout.take());
    let output = child.wait_with_output().expect("the program ends");
    assert_eq!(output.status.signal(), Some(SIGPIPE));
    assert!(output.stderr.is_empty());
}

#[test]
fn judge_tells_how_it_is_used() {
    let help = judge().arg("--help").output().expect("the program runs");
    assert!(help.status.success());
    assert!(text(&help.stdout).starts_with("usage: judge"));
    assert!(text(&help.stdout).contains("--state FILE"));
    assert!(text(&help.stdout).contains("--why LINE"));

    for arguments in [
        "file",
        "--after file",
        "--why",
        "--why x",
        "--why -1",
        "--why 4294967296",
        "--why 00000000001",
        "--why 1 2",
        "--why --all 1",
        "--all",
        "--state",
        "--state one two",
        "--differ",
        "--differ one",
        "--differ one two three",
        "--help --state",
        "--what",
    ] {
        let misused = judge().args(arguments.split(' ')).output();
        let misused = misused.expect("the program runs");
        assert_eq!(misused.status.code(), Some(2), "{arguments}");
        assert!(misused.stdout.is_empty(), "{arguments}");
        assert!(
            text(&misused.stderr).contains("\nusage: judge"),
            "{arguments}"
        );
    }
}

/// A file of these bytes, which stays in the folder that cargo has for tests.
fn file(name: &str, bytes: &[u8]) -> PathBuf {
    let path = PathBuf::from(env!("CARGO_TARGET_TMPDIR")).join(name);
    fs::write(&path, bytes).expect("a file is written");
    path
}

/// Standard output, standard error and the exit code.
type Streams = (String, String, Option<i32>);

fn streams(told: Output) -> Streams {
    let (output, error) = (text(&told.stdout), text(&told.stderr));
    (output.to_string(), error.to_string(), told.status.code())
}

/// What the judge tells of a file.
fn told(path: &PathBuf) -> Streams {
    let told = judge().arg("--state").arg(path).output();
    streams(told.expect("the program runs"))
}

#[test]
fn judge_tells_the_state_after_a_script() {
    for script in ["", "S,1\nA,1,7\nA,2,5\nD\n?\nT,9"] {
        let output = fed(judge().arg("--after"), script.as_bytes());
        assert!(output.status.success());
        let node = judge::script::node_after(script.as_bytes());
        assert_eq!(text(&output.stdout), state::text(&node));
        assert!(output.stderr.is_empty());
    }
}

#[test]
fn judge_tells_the_state_of_a_node() {
    let memory = memory_after("A,2,5,6 S,1 A,1,7 T,9");
    let node = judge::memory::read(&memory).expect("a node");
    let longer = [memory.clone(), vec![9; 5]].concat();
    for (name, memory) in [("exact", memory), ("longer", longer)] {
        let told = told(&file(name, &bytes(&memory)));
        assert_eq!(told, (state::text(&node), String::new(), Some(0)));
    }
}

#[test]
fn judge_tells_why_a_file_holds_no_node() {
    let mut memory = memory_after("A,2,5,6 S,1 A,1,7 T,9");
    let whole = bytes(&memory);
    memory[1] = 256;
    let ragged = [whole.as_slice(), &[0]].concat();
    let cases: [(&str, &[u8], &str); 4] = [
        ("empty", &[], "memory too short: 0 words, a node has 8104"),
        (
            "short",
            &whole[..32_415],
            "memory too short: 8103 words, a node has 8104",
        ),
        ("ragged", &ragged, "the last word is cut short: 32417 bytes"),
        (
            "damaged",
            &bytes(&memory),
            "this does not hold: timer is within the bounds\n  word 1, the timer: 256",
        ),
    ];
    for (name, bytes, why) in cases {
        let path = file(name, bytes);
        let error = format!("judge: {} is no node: {why}\n", path.display());
        assert_eq!(told(&path), (String::new(), error, Some(1)));
    }
}

#[test]
fn judge_tells_a_file_that_it_cannot_read() {
    let folder = PathBuf::from(env!("CARGO_MANIFEST_DIR"));
    let whole = file("whole", &bytes(&memory_after("S,1")));
    let empty = PathBuf::new();
    let absent = "No such file or directory";
    for (path, name, why) in [
        (folder.join("no-such-file"), None, absent),
        (folder, None, "Is a directory"),
        (empty, Some("''"), absent),
    ] {
        let name = name.map_or(path.display().to_string(), str::to_string);
        let error = format!("judge: {name}: {why}\n");
        let unread = (String::new(), error, Some(2));
        assert_eq!(told(&path), unread);
        assert_eq!(differ(&path, &whole), unread);
        assert_eq!(differ(&whole, &path), unread);
    }
}

/// A device that never ends does not hold the judge.
#[test]
fn judge_tells_a_file_that_does_not_end() {
    let zeros = PathBuf::from("/dev/zero");
    let error = "judge: /dev/zero is no node: it does not end within 16777216 bytes\n";
    let endless = |code| (String::new(), error.to_string(), Some(code));
    assert_eq!(told(&zeros), endless(1));
    let whole = file("whole-too", &bytes(&memory_after("S,1")));
    assert_eq!(differ(&zeros, &whole), endless(3));
    assert_eq!(differ(&whole, &zeros), endless(3));
}

/// However long it is: the length is not found by reading.
#[test]
fn judge_tells_the_state_of_a_regular_file_of_any_length() {
    let memory = memory_after("A,1,7 S,1");
    let path = file("sparse", &bytes(&memory));
    let sparse = fs::File::options().write(true).open(&path);
    let sparse = sparse.expect("a file is opened");
    let node = judge::memory::read(&memory).expect("a node");
    sparse.set_len(1 << 40).expect("it is made longer");
    assert_eq!(told(&path), (state::text(&node), String::new(), Some(0)));
    sparse.set_len((1 << 40) + 1).expect("it is made longer");
    let why = "the last word is cut short: 1099511627777 bytes";
    let error = format!("judge: {} is no node: {why}\n", path.display());
    assert_eq!(told(&path), (String::new(), error, Some(1)));
    fs::remove_file(&path).expect("removed");
}

/// What comes through a pipe is read to its end.
#[test]
fn judge_tells_the_state_of_a_dump_in_a_pipe() {
    let memory = memory_after("A,1,7 S,1");
    let node = judge::memory::read(&memory).expect("a node");
    for behind in [0, 1, 100_000] {
        let piped = [bytes(&memory), vec![7; 4 * behind]].concat();
        let told = streams(fed(judge().args(["--state", "/dev/stdin"]), &piped));
        assert_eq!(told, (state::text(&node), String::new(), Some(0)));
    }
}

/// Where the judge says that two files differ.
fn differ(one: &Path, two: &Path) -> Streams {
    let told = judge().arg("--differ").arg(one).arg(two).output();
    streams(told.expect("the program runs"))
}

#[test]
fn judge_tells_where_two_dumps_differ() {
    let memory = memory_after("A,2,5,6 S,1 A,1,7 T,9");
    let one = file("differ-one", &bytes(&memory));
    assert_eq!(differ(&one, &one), (String::new(), String::new(), Some(0)));
    let two = file(
        "differ-two",
        &bytes(&memory_after("A,2,5,6 S,1 A,1,7 T,11")),
    );
    let told = |told: &str, code| (told.to_string(), String::new(), Some(code));
    assert_eq!(differ(&one, &two), told("timer: 9, 11\n", 1));
    assert_eq!(differ(&two, &one), told("timer: 11, 9\n", 1));

    let longer = |name, behind: &[u32]| file(name, &bytes(&[&memory, behind].concat()));
    let more = longer("differ-more", &[3, 4, 5]);
    let most = longer("differ-most", &[3, 7, 5, 8]);
    assert_eq!(differ(&more, &more), told("", 0));
    let count = "words behind the node: 0, 3\n";
    assert_eq!(differ(&one, &more), told(count, 1));
    let both = "words behind the node: 3, 4\nword 8105: 4, 7\n";
    assert_eq!(differ(&more, &most), told(both, 1));
    let all = "timer: 9, 11\nwords behind the node: 3, 0\n";
    assert_eq!(differ(&more, &two), told(all, 1));
}

#[test]
fn judge_names_the_file_that_holds_no_node() {
    let mut memory = memory_after("A,2,5,6 S,1 A,1,7 T,9");
    let node = file("differ-node", &bytes(&memory));
    memory[1] = 256;
    let damaged = file("differ-damaged", &bytes(&memory));
    let empty = file("differ-empty", &[]);
    let broken = "this does not hold: timer is within the bounds\n  word 1, the timer: 256";
    let broken = format!("judge: {} is no node: {broken}\n", damaged.display());
    let short = "memory too short: 0 words, a node has 8104";
    let short = format!("judge: {} is no node: {short}\n", empty.display());
    for (one, two, error) in [
        (&node, &damaged, broken.clone()),
        (&damaged, &node, broken.clone()),
        (&empty, &node, short.clone()),
        (&empty, &damaged, format!("{short}{broken}")),
    ] {
        assert_eq!(differ(one, two), (String::new(), error, Some(3)));
    }
}

/// A message that was disposed of, one that is moved at once, and one that still waits.
const ASKED: &[u8] = b"S,1\nA,1,7\nD\nA,2,5\n?\nA,1,8\nM";

/// What the judge tells of a script where it is asked why.
fn told_why(arguments: &str, script: &[u8]) -> Streams {
    streams(fed(judge().arg("--why").args(arguments.split(' ')), script))
}

#[test]
fn judge_tells_why_a_message_was_buffered() {
    let second = "line 2: reason 1 at line 3: never buffered, disposed of\n";
    let fourth = "line 4: reason 3 at line 4: its group wasn't running when it became head\n";
    let sixth = "line 6: reason 2 at line 7: still in the hardware queue\n";
    let all = [second, fourth, sixth].concat();
    for (asked, told) in [
        ("2", second),
        ("0000000002", second),
        ("4", fourth),
        ("6", sixth),
        ("--all", &all),
    ] {
        let told = (told.to_string(), String::new(), Some(0));
        assert_eq!(told_why(asked, ASKED), told, "{asked}");
    }
}

#[test]
fn judge_tells_of_no_accepted_arrival_nothing() {
    for script in ["", "\n", "S,1\nA,9,1\nA,1\nM"] {
        let nothing = (String::new(), String::new(), Some(0));
        assert_eq!(told_why("--all", script.as_bytes()), nothing, "{script}");
    }
}

#[test]
fn judge_refuses_to_tell_why_of_other_lines() {
    let unreadable = "refused with 2: it can't be read";
    let no_arrival = "refused with 17: it is no accepted arrival of this script";
    for (asked, why) in [
        ("0", no_arrival),
        ("1", no_arrival),
        ("5", unreadable),
        ("8", no_arrival),
        ("4294967295", no_arrival),
    ] {
        let error = format!("judge: line {asked}: {why}\n");
        assert_eq!(told_why(asked, ASKED), (String::new(), error, Some(1)));
    }
}

#[test]
fn judge_tells_why_in_big_scripts() {
    let script = [
        &b"S,1\n".repeat(200_000),
        &b"A,1,7\nO\n"[..],
        &b"A,1,".repeat(1_000_000),
    ];
    let script = script.concat();
    let told = "line 200001: reason 7 at line 200002: the processor was taken\n";
    for asked in ["200001", "--all"] {
        let told = (told.to_string(), String::new(), Some(0));
        assert_eq!(told_why(asked, &script), told);
    }
}

/// What check-script tells of a script.
fn checked(script: &[u8]) -> Streams {
    streams(fed(&mut Command::new(path("check-script")), script))
}

#[test]
fn check_script_tells_each_line_that_cannot_be_read() {
    let told = |told: &str, code| (told.to_string(), String::new(), Some(code));
    let well = b"S,1\nA,1,7\nD";
    assert_eq!(checked(well), told("3 lines, all can be read\n", 0));
    assert_eq!(checked(b""), told("no lines: the script is empty\n", 0));
    assert_eq!(checked(b"M"), told("1 line, all can be read\n", 0));
    let bad = b"S, 1\n\nA,1,7\nA,1,7,x";
    let lines = "line 1, field 2: a blank: S, 1\n\
                 line 2: an empty line\n\
                 line 4, field 4: a bad number: A,1,7,x\n\
                 4 lines, 3 of them can't be read\n";
    assert_eq!(checked(bad), told(lines, 1));
    let (_, error, code) = called("check-script", "script");
    assert_eq!(code, Some(2));
    assert!(
        error.contains("\nusage: check-script < SCRIPT\n"),
        "{error}"
    );
}

#[test]
fn scripts_writes_the_same_bytes_for_the_same_seed() {
    let (once, again) = (scripts("5 300 mixed"), scripts("5 300 mixed"));
    assert!(once.status.success());
    assert_eq!(once.stdout, again.stdout);
    assert_eq!(
        once.stdout.iter().filter(|&&byte| byte == b'\n').count(),
        300
    );
}

#[test]
fn scripts_lists_its_flavours() {
    let list = scripts("--list");
    assert!(list.status.success());
    let named: Vec<&str> = text(&list.stdout)
        .lines()
        .filter_map(|line| line.split(' ').next())
        .collect();
    let names =
        "uniform arrivals swap swaptime switches acts ticks force bad hogs disposals launches mixed";
    for name in names.split(' ') {
        assert!(named.contains(&name), "{name}");
    }
}

#[test]
fn scripts_counts_and_names_what_is_missing() {
    let enough = scripts("--counts 1 2000");
    assert!(enough.status.success(), "{}", text(&enough.stderr));
    assert!(text(&enough.stdout).starts_with("answer"));
    assert_eq!(
        text(&enough.stdout).lines().count(),
        1 + 14 + 1 + 3 + 3 + 6 + 7 + 6 + 6
    );

    let few = scripts("--counts 1 1");
    assert_eq!(few.status.code(), Some(1));
    assert!(text(&few.stderr).contains("answer 5, answer 6"));

    let one = scripts("--counts 1 100 launches");
    assert!(one.status.success());
}

#[test]
fn scripts_tells_how_it_is_used() {
    let help = scripts("--help");
    assert!(help.status.success());
    assert!(text(&help.stdout).starts_with("usage: scripts"));
    for arguments in [
        "",
        "1",
        "1 2",
        "x 2 mixed",
        "1 -2 mixed",
        "1 2 no-such",
        "1 2 mixed 3",
        "--counts",
        "--counts 1",
        "--counts 1 x",
        "--counts 1 2 no-such",
        "--what",
    ] {
        let misused = scripts(arguments);
        assert_eq!(misused.status.code(), Some(2), "{arguments}");
        assert!(misused.stdout.is_empty(), "{arguments}");
        assert!(
            text(&misused.stderr).contains("\nusage: scripts"),
            "{arguments}"
        );
    }
}
