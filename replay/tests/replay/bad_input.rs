//! Scripts, nodes and streams as they should not be.

use std::fs::{self, File};
use std::os::unix::process::ExitStatusExt;
use std::process::{Command, Stdio};

use replay::check::check;

use crate::support::{file, refused_in_a_line, replay, whole_case, written, Data, REPLAY};

const SIGPIPE: i32 = 13;

/// The lines of a page: their texts and answers.
fn lines(page: &str) -> Vec<(String, String)> {
    let data = Data::of(page);
    assert!(check(page.as_bytes()).unwrap().contains("agree"));
    let lines = data.lines.iter();
    lines
        .map(|[_, text, report, ..]| (text.to_string(), report.to_string()))
        .collect()
}

fn line(text: &str, report: &str) -> (String, String) {
    (text.to_string(), report.to_string())
}

const UNREADABLE: &str = "2,0,0,0,0";

#[test]
fn few_lines_and_odd_ones() {
    for (script, expected, newline) in [
        (b"" as &[u8], vec![], "yes"),
        (b"\n", vec![line("", UNREADABLE)], "yes"),
        (b"\n\n", vec![line("", UNREADABLE); 2], "yes"),
        (b"S,1", vec![line("S,1", "0,0,0,0,0")], "no"),
        (
            b"\nS,1",
            vec![line("", UNREADABLE), line("S,1", "0,0,0,0,0")],
            "no",
        ),
        (b"S,1\r\n", vec![line("S,1\\x0d", UNREADABLE)], "yes"),
        (b"\0", vec![line("\\x00", UNREADABLE)], "no"),
    ] {
        let page = written(&replay(&[], script));
        assert_eq!(lines(&page), expected);
        assert_eq!(Data::of(&page).named("newline"), newline);
    }
}

#[test]
fn every_byte() {
    let script: Vec<u8> = (0..=255).flat_map(|byte| [byte, b'\n']).collect();
    let page = written(&replay(&[], &script));
    // The newline is two empty lines.
    assert_eq!(lines(&page).len(), 257);
}

#[test]
fn long_lines() {
    for length in [128, 129, 1 << 20] {
        let text = "A".repeat(length);
        let page = written(&replay(&[], format!("{text}\nS,1\n{text}").as_bytes()));
        assert_eq!(
            lines(&page),
            [
                line(&text, UNREADABLE),
                line("S,1", "0,0,0,0,0"),
                line(&text, UNREADABLE)
            ]
        );
        let shown = match length {
            128 => text.clone(),
            _ => format!("{}… ({length} bytes)", &text[..128]),
        };
        assert!(page.contains(&format!("<td><code>{shown}</code></td>")));
    }
}

#[test]
fn a_script_without_an_end() {
    let mut yes = Command::new("yes").stdout(Stdio::piped()).spawn().unwrap();
    let output = Command::new(REPLAY)
        .stdin(yes.stdout.take().unwrap())
        .output()
        .unwrap();
    yes.wait().unwrap();
    refused_in_a_line(&output, 1, "the script has more than 67,108,864 bytes");
}

/// Memory that is no node: every line is answered 1, and nothing changes.
#[test]
fn on_what_is_no_node() {
    let script = whole_case();
    let node = file("no-node");
    let name = node.to_str().unwrap();
    let zeros = vec![0; 32_416];
    for (bytes, memory) in [
        (&b""[..], "0"),
        (b"short", "0"),
        (b"a word and some", "0"),
        (b"two word", "2"),
        (&zeros, "8104"),
        (&zeros[..32_412], "8103"),
        (&[&zeros[..], b"past"].concat(), "8104"),
        (&[&zeros[..], b"pas"].concat(), "0"),
    ] {
        fs::write(&node, bytes).unwrap();
        let output = replay(&["--on", name], &script);
        assert_eq!(output.status.code(), Some(0));
        let told = String::from_utf8_lossy(&output.stderr);
        assert_eq!(
            told,
            format!("replay: {name} is no node: each line is answered 1\n")
        );
        let page = String::from_utf8(output.stdout).unwrap();
        let data = Data::of(&page);
        assert_eq!(
            (data.named("begin"), data.named("memory")),
            ("no-node", memory)
        );
        assert!(data
            .lines
            .iter()
            .all(|line| line[2..] == ["1,0,0,0,0", "", ""]));
        let found = check(page.as_bytes()).unwrap();
        assert_eq!(
            found,
            "13 lines agree; the memory that they begin at is no node\n"
        );
    }
}

#[test]
fn folders() {
    refused_in_a_line(&replay(&["--on", "/"], b""), 1, "/: Is a directory");
    refused_in_a_line(&replay(&["--check", "/"], b""), 1, "/: Is a directory");
    let output = Command::new(REPLAY)
        .stdin(File::open("/").unwrap())
        .output()
        .unwrap();
    refused_in_a_line(&output, 1, "standard input: Is a directory");
}

#[test]
fn a_full_device() {
    let page = file("full-device.html");
    fs::write(&page, written(&replay(&[], b"S,1\n"))).unwrap();
    for arguments in [&["--title", "t"], &["--check", page.to_str().unwrap()]] {
        let full = File::options().write(true).open("/dev/full").unwrap();
        let output = Command::new(REPLAY)
            .args(arguments)
            .stdin(Stdio::null())
            .stdout(full)
            .stderr(Stdio::piped())
            .spawn();
        let output = output.unwrap().wait_with_output().unwrap();
        refused_in_a_line(&output, 1, "standard output: No space left on device");
    }
}

#[test]
fn a_reader_that_goes_away() {
    let script = "M\n".repeat(20_000).into_bytes();
    let path = file("reader-gone.script");
    fs::write(&path, script).unwrap();
    let mut child = Command::new(REPLAY)
        .stdin(File::open(&path).unwrap())
        .stdout(Stdio::piped())
        .stderr(Stdio::piped())
        .spawn()
        .unwrap();
    drop(child.stdout.take());
    let output = child.wait_with_output().unwrap();
    assert_eq!(output.status.signal(), Some(SIGPIPE));
    assert!(output.stderr.is_empty());
}
