//! `memories`, `reasons` and `calls` as they are called: arguments, output and exit codes.

use std::process::{Command, Output};

fn path(program: &str) -> &'static str {
    match program {
        "memories" => env!("CARGO_BIN_EXE_memories"),
        "reasons" => env!("CARGO_BIN_EXE_reasons"),
        _ => env!("CARGO_BIN_EXE_calls"),
    }
}

fn run(program: &str, arguments: &str) -> Output {
    let mut command = Command::new(path(program));
    let output = command.args(arguments.split_whitespace()).output();
    output.expect("the program runs")
}

fn text(bytes: &[u8]) -> &str {
    std::str::from_utf8(bytes).expect("text")
}

#[test]
fn memories_prints_a_table() {
    let output = run("memories", "2000 7");
    assert!(output.status.success(), "{}", text(&output.stderr));
    assert_eq!(text(&output.stderr), "memories: 2000 of 2000\n");
    let table = text(&output.stdout);
    assert!(table.starts_with("  2000 memories, "), "{table}");
    assert!(table.contains("memory too short\n"), "{table}");
    assert!(table.contains("\npower-on "), "{table}");
    assert_eq!(run("memories", "2000 7").stdout, output.stdout);
}

#[test]
fn few_memories_need_not_meet_everything() {
    assert!(run("memories", "0 1").status.success());
    assert!(run("memories", "1 1").status.success());
}

#[test]
fn reasons_prints_a_table() {
    let output = run("reasons", "140 7");
    assert!(output.status.success(), "{}", text(&output.stderr));
    assert_eq!(text(&output.stderr), "reasons: 140 of 140\n");
    let table = text(&output.stdout);
    let asked = "21280 lines asked for, of 140 scripts:\n";
    assert!(table.starts_with(asked), "{table}");
    assert_eq!(table.lines().count(), 1 + 15);
    assert!(
        table.contains("\n    140 refusal 17 of line 0\n"),
        "{table}"
    );
    assert_eq!(run("reasons", "140 7").stdout, output.stdout);
    assert!(run("reasons", "1 1").status.success());
}

#[test]
fn reasons_writes_the_rows_of_a_script() {
    let script = std::env::temp_dir().join(format!("reasons-{}.script", std::process::id()));
    std::fs::write(&script, "S,1\nA,1,7\n?\nD").expect("written");
    let output = run("reasons", &format!("--rows {}", script.display()));
    std::fs::remove_file(&script).expect("removed");
    assert!(output.status.success(), "{}", text(&output.stderr));
    assert_eq!(
        text(&output.stdout),
        "0 refused 17\n1 refused 17\n2 reason 1 line 4\n3 refused 2\n4 refused 17\n5 refused 17\n"
    );
    let absent = run("reasons", "--rows /nowhere");
    assert_eq!(absent.status.code(), Some(1));
    let told = "reasons: /nowhere: No such file or directory\n";
    assert_eq!(text(&absent.stderr), told);
}

#[test]
fn the_programs_tell_how_they_are_used() {
    let wrong: [(&str, &[&str]); 3] = [
        ("memories", &["", "1", "x 1", "1 -1", "1 1 1"]),
        (
            "reasons",
            &["", "1", "x 1", "1 -1", "1 1 1", "--rows", "--rows a b"],
        ),
        ("calls", &["--what", "--script", "--script a b", "a"]),
    ];
    for (program, wrong) in wrong {
        let help = run(program, "--help");
        assert!(help.status.success());
        let usage = format!("usage: {program} ");
        assert!(text(&help.stdout).starts_with(&usage));
        assert_eq!(run(program, "-h").stdout, help.stdout);
        let version = format!("{program} {}, proved with ", env!("CARGO_PKG_VERSION"));
        let told = run(program, "--version").stdout;
        assert!(text(&told).starts_with(&version));
        for arguments in wrong {
            let misused = run(program, arguments);
            assert_eq!(misused.status.code(), Some(2), "{program} {arguments}");
            assert!(misused.stdout.is_empty());
            assert!(text(&misused.stderr).contains(&usage));
        }
    }
}

#[test]
fn calls_tells_times_and_ratios() {
    let script = std::env::temp_dir().join(format!("calls-{}.script", std::process::id()));
    std::fs::write(&script, "S,1\nA,1,7\n?\nD\nM").expect("written");
    let output = run("calls", &format!("--script {}", script.display()));
    std::fs::remove_file(&script).expect("removed");
    assert!(output.status.success(), "{}", text(&output.stderr));
    let told = text(&output.stdout);
    // The last line has no newline, and is left out.
    assert!(told.contains(": 256 calls of each"), "{told}");
    for name in ["fugu_step", "fugu_line", "fugu_test"] {
        assert!(told.contains(&format!(" ns a call  {name}\n")), "{told}");
        assert!(told.contains(&format!("\n{name} takes ")), "{told}");
    }
}

#[test]
fn calls_needs_a_script() {
    let empty = run("calls", "--script /dev/null");
    assert!(empty.status.success());
    assert!(text(&empty.stdout).ends_with("the calls are left out\n"));
    let absent = run("calls", "--script /nowhere");
    assert_eq!(absent.status.code(), Some(1));
    let told = "calls: /nowhere: No such file or directory\n";
    assert_eq!(text(&absent.stderr), told);
}

/// Before anything is compared or measured.
#[test]
fn an_output_that_cannot_be_written_is_told_at_once() {
    for (program, arguments) in [
        ("memories", "1000000000 1"),
        ("reasons", "1000000000 1"),
        ("calls", ""),
    ] {
        let call = format!("exec \"$0\" {arguments} >&-");
        let mut shell = Command::new("sh");
        let shell = shell.args(["-c", &call, path(program)]).output();
        let output = shell.expect("the shell runs");
        assert_eq!(output.status.code(), Some(1));
        let told = format!("{program}: standard output: Bad file descriptor\n");
        assert_eq!(text(&output.stderr), told);
    }
}
