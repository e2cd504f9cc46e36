//! Every answer, by a line and by its letter; a refused step reports nothing else and changes
//! nothing.

use fugu::{answer, Node, SIZE};

use crate::support::{after, arrivals, only, report, started, taken_apart};

/// The line is refused with this answer.
fn refused(node: Node<Vec<u32>>, line: &str, answer: u32) {
    let mut by_line = node.clone();
    assert_eq!(by_line.line(line.as_bytes()), only(answer), "{line}");
    assert_eq!(by_line, node, "{line}");
    let (letter, numbers) =
        taken_apart(line.as_bytes()).expect("the line has a letter and numbers");
    let mut by_letter = node.clone();
    assert_eq!(by_letter.step(letter, &numbers), only(answer), "{line}");
    assert_eq!(by_letter, node, "{line}");
}

#[test]
fn accepted() {
    let mut node = started();
    assert!(node.line(b"S,1").is_accepted());
    assert_eq!(node.line(b"A,1,7"), report("0,0,0,1,0"));
    assert_eq!(node.line(b"P,5"), report("0,1,0,0,0"));
    let launched = node.line(b"L,3");
    assert_eq!(launched, report("0,1,0,0,0,3,1,5"));
    assert_eq!(launched.sent.words(), [5]);
}

#[test]
fn no_node() {
    refused(Node::over(vec![0; SIZE]), "S,1", answer::NOT_NODE);
}

#[test]
fn unreadable() {
    refused(started(), "Q,1", answer::UNREADABLE);
    refused(started(), "M,1", answer::UNREADABLE);
    refused(started(), "B,2", answer::UNREADABLE);
}

#[test]
fn bad_group() {
    refused(started(), "A,0,1", answer::BAD_GROUP);
    refused(started(), "A,9,1", answer::BAD_GROUP);
}

#[test]
fn bad_words() {
    refused(started(), "A,1", answer::BAD_WORDS);
    refused(started(), "A,1,1,2,3,4,5,6,7,8,9", answer::BAD_WORDS);
}

#[test]
fn queue_full() {
    refused(
        after(&arrivals(&["S,1"], "A,1,7", 16)),
        "A,1,7",
        answer::QUEUE_FULL,
    );
}

#[test]
fn no_frames() {
    refused(
        after(&arrivals(&[], "A,1,7", 768)),
        "A,1,7",
        answer::NO_PAGES,
    );
}

#[test]
fn nobody_runs() {
    for line in ["M", "E,0", "D", "B", "B,1", "N", "P,1", "L,1"] {
        refused(started(), line, answer::NOBODY_RUNS);
    }
}

#[test]
fn no_message() {
    refused(after(&["S,1"]), "D", answer::NO_MESSAGE);
    refused(after(&["S,1"]), "E,9", answer::NO_MESSAGE);
}

#[test]
fn past_message() {
    refused(after(&["S,1", "A,1,7"]), "E,1", answer::PAST_MESSAGE);
}

#[test]
fn still_pending() {
    refused(after(&["S,1", "A,1,7"]), "N", answer::STILL_PENDING);
}

#[test]
fn descriptor_full() {
    refused(
        after(&arrivals(&["S,1"], "P,7", 8)),
        "P,7",
        answer::DESCRIPTOR_FULL,
    );
}

#[test]
fn descriptor_empty() {
    refused(after(&["S,1"]), "L,64", answer::DESCRIPTOR_EMPTY);
}

#[test]
fn bad_node() {
    refused(after(&["S,1", "P,7"]), "L,64", answer::BAD_NODE);
}

#[test]
fn bad_schedule() {
    for line in ["S,9", "I,0", "I,9", "I,4294967295"] {
        refused(started(), line, answer::BAD_SCHEDULE);
        refused(after(&["S,1"]), line, answer::BAD_SCHEDULE);
    }
}

#[test]
fn bad_ticks() {
    refused(started(), "T,0", answer::BAD_TICKS);
    refused(started(), "T,65536", answer::BAD_TICKS);
}

#[test]
fn already_runs() {
    for line in ["I,1", "I,2", "I,8"] {
        refused(after(&["I,1"]), line, answer::ALREADY_RUNS);
        refused(after(&["S,1", "A,1,7"]), line, answer::ALREADY_RUNS);
    }
}
