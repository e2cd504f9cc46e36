//! What docs/REPLAY.md shows is so.

use std::fs;
use std::process::Command;

use fugu::{Node, SIZE};
use replay::check::check;

use crate::support::{file, page_of, root, whole_case};

fn document() -> String {
    fs::read_to_string(root().join("docs/REPLAY.md")).expect("the document is read")
}

/// The first block of a language behind a heading.
fn block<'a>(document: &'a str, heading: &str, language: &str) -> &'a str {
    let (_, section) = document.split_once(heading).expect("the heading is there");
    let (_, from) = section
        .split_once(&format!("\n```{language}\n"))
        .expect("the block is there");
    from.split_once("```").expect("the block ends").0
}

#[test]
fn the_beginning_of_a_run() {
    let page = page_of(&whole_case());
    let document = document();
    for line in block(&document, "## The format", "").lines() {
        let begins = line.strip_suffix("..").unwrap_or(line);
        assert!(page.contains(&format!("\n{begins}")), "{line}");
    }
}

/// By the document's own commands, after any line.
#[test]
fn the_memory_after_any_line() {
    let document = document();
    let folder = file("documents");
    fs::create_dir_all(&folder).unwrap();
    fs::write(
        folder.join("dump.awk"),
        block(&document, "### The memory", "awk"),
    )
    .unwrap();
    fs::write(folder.join("replay.html"), page_of(&whole_case())).unwrap();
    let commands = block(&document, "### The memory", "sh");
    assert!(commands.contains("at=6 "));
    let mut node = Node::power_on(vec![0; SIZE]).unwrap();
    let script = whole_case();
    let mut lines = script.split(|&byte| byte == b'\n');
    for at in 0..=13 {
        let commands = commands.replace("at=6 ", &format!("at={at} "));
        let ended = Command::new("sh")
            .args(["-c", &commands])
            .current_dir(&folder)
            .status();
        assert!(ended.unwrap().success());
        let words = node.memory().iter();
        let expected: Vec<u8> = words.flat_map(|word| word.to_le_bytes()).collect();
        assert_eq!(
            fs::read(folder.join("node")).unwrap(),
            expected,
            "line {at}"
        );
        node.line(lines.next().unwrap());
    }
}

#[test]
fn what_a_check_says() {
    let document = document();
    let page = page_of(&whole_case());
    let told = |from: &str, to: &str| match check(page.replacen(from, to, 1).as_bytes()) {
        Ok(told) | Err(told) => assert!(
            document.contains(&format!("| `{}` |", told.trim_end())),
            "{told}"
        ),
    };
    told("", "");
    told("|0,0,3,0,2|", "|0,0,3,0,1|");
    told("words 8104", "words 9000");
}
