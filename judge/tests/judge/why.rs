//! Order 6: the reasons and refusals of the vectors, of each of its readings, and of random scripts held
//! against the reports of their lines.

use std::fs;
use std::path::Path;

use judge::generator::FLAVOURS;
use judge::node::{Move, Mover, Operation, Passage, Refusal};
use judge::script;
use judge::why::{answers, Answer, Reason, Refused, Why};

use crate::support::after;

/// The answers as a `.why` file has them.
fn rows(answers: &[Answer]) -> String {
    let row = |(line, answer): (usize, &Answer)| match *answer {
        Ok(Why { reason, line: at }) => format!("{line} reason {} line {at}\n", reason as u32),
        Err(refused) => format!("{line} refused {}\n", refused as u32),
    };
    answers.iter().enumerate().map(row).collect()
}

/// The accepted arrivals of a script, its lines parted by blanks: each `LINE:REASON@LINE`.
fn reasons(script: &str) -> String {
    let answers = answers(script.replace(' ', "\n").as_bytes());
    let told = answers.iter().enumerate().filter_map(|(line, answer)| {
        let Why { reason, line: at } = answer.ok()?;
        Some(format!("{line}:{}@{at}", reason as u32))
    });
    told.collect::<Vec<String>>().join(" ")
}

#[test]
fn every_row_of_the_vectors() {
    let folder = Path::new(env!("CARGO_MANIFEST_DIR")).join("../vectors/order6");
    let entries = fs::read_dir(folder).expect("a folder");
    let paths = entries.map(|entry| entry.expect("an entry").path());
    let mut files = 0;
    for path in paths.filter(|path| path.extension().is_some_and(|end| end == "why")) {
        let script = fs::read(path.with_extension("script")).expect("a script");
        let expected = fs::read_to_string(&path).expect("text");
        assert_eq!(rows(&answers(&script)), expected, "{}", path.display());
        files += 1;
    }
    assert_eq!(files, 33);
}

/// Behind the head that O takes away, each next message becomes head while nobody runs.
#[test]
fn becoming_head_is_judged_at_the_moment() {
    assert_eq!(reasons("S,1 A,1,7 A,1,8 A,2,5 O"), "2:7@5 3:3@5 4:3@5");
    assert_eq!(reasons("S,1 A,1,7 A,2,5 D"), "2:1@4 3:3@4");
    assert_eq!(reasons("A,1,7 S,1 O A,1,8"), "1:3@1 4:3@4");
}

#[test]
fn s_takes_the_processor_and_then_gives_it() {
    assert_eq!(reasons("S,1 A,1,7 A,2,5 S,2"), "2:7@4 3:3@4");
    assert_eq!(reasons("S,1 A,1,7 A,2,5 S,0"), "2:7@4 3:3@4");
    assert_eq!(reasons("S,1 A,1,7 S,1"), "2:2@3");
}

#[test]
fn where_nobody_runs_nothing_is_taken() {
    assert_eq!(reasons("O A,1,7 O S,1 I,2"), "2:3@2");
}

/// A T of 256 revokes group 1 and leaves its message in the buffer, until D.
#[test]
fn the_first_that_holds_is_named() {
    assert_eq!(reasons("S,1 A,1,7 T,256 A,1,8"), "2:6@3 4:4@4");
    assert_eq!(reasons("S,1 A,1,7 T,256 D A,1,8"), "2:6@3 5:5@5");
    assert_eq!(reasons("S,1 A,1,7 T,256 D O A,1,8"), "2:6@3 6:3@6");
    assert_eq!(reasons("A,1,7 A,1,8 S,1 A,1,9"), "1:3@1 2:3@2 4:4@4");
}

#[test]
fn all_that_a_timeout_moves_has_that_reason() {
    assert_eq!(reasons("S,1 A,1,7 A,2,8 A,1,9 T,256"), "2:6@5 3:6@5 4:6@5");
    assert_eq!(reasons("S,1 B,1 A,1,7 A,2,8 T,600"), "3:6@5 4:6@5");
}

#[test]
fn a_message_that_was_buffered_and_then_disposed_of_has_the_line_that_moved_it() {
    assert_eq!(reasons("A,1,7 S,1 D"), "1:3@1");
    assert_eq!(reasons("S,1 A,1,7 T,256 D N"), "2:6@3");
}

#[test]
fn the_last_line_counts_whatever_it_is() {
    for last in ["M", "I,1", "A,1", "?", "A,1,", "S,9"] {
        assert_eq!(reasons(&format!("S,1 A,1,7 {last}")), "2:2@3", "{last}");
    }
    // An empty line is one, and the end behind a newline is none.
    assert_eq!(reasons("S,1 A,1,7  "), "2:2@3");
    assert_eq!(reasons("S,1 A,1,7 "), "2:2@2");
}

#[test]
fn a_line_that_cannot_be_read_is_refused_with_2_and_any_other_with_17() {
    let refused = |line: &str| answers(line.as_bytes())[1];
    for line in ["?", "A", "A,", "A,1,x", "a,1,7", "A,1,7\r", "\n"] {
        assert_eq!(refused(line), Err(Refused::Unreadable), "{line}");
    }
    assert_eq!(refused(&"A".repeat(129)), Err(Refused::Unreadable));
    for line in ["A,1", "A,0,7", "A,9,7", "A,1,1,2,3,4,5,6,7,8,9", "S,1", "D"] {
        assert_eq!(refused(line), Err(Refused::NoArrival), "{line}");
    }
}

#[test]
fn lines_that_are_not_in_the_script_are_refused_with_17() {
    assert_eq!(rows(&answers(b"")), "0 refused 17\n1 refused 17\n");
    let three = "0 refused 17\n1 refused 2\n2 refused 17\n";
    assert_eq!(rows(&answers(b"?")), three);
    assert_eq!(rows(&answers(b"?\n")), three);
}

#[test]
fn what_happens_to_heads() {
    let passages = |lines: &str, line: &str| {
        let report = after(lines).step(&script::read(line.as_bytes()));
        report.passages
    };
    let became = |runs| Passage::BecameHead { runs };
    let moved = |by, older, revoked| Passage::Moved(Move { by, older, revoked });
    assert_eq!(passages("S,1", "A,1,7"), [became(true)]);
    assert_eq!(passages("S,1 A,1,7", "A,2,8"), []);
    let settled = moved(Mover::Settling, false, false);
    assert_eq!(passages("", "A,1,7"), [became(false), settled]);
    assert_eq!(
        passages("S,1 A,1,7 A,2,8", "D"),
        [Passage::Disposed, became(false), settled]
    );
    let taken = moved(Mover::Take, false, false);
    for line in ["O", "S,0", "S,2"] {
        assert_eq!(
            passages("S,1 A,1,7 A,2,8", line),
            [taken, became(false), taken]
        );
    }
    let timed_out = |older| moved(Mover::Timeout, older, false);
    assert_eq!(
        passages("S,1 A,1,7 A,1,8", "T,256"),
        [timed_out(false), became(true), timed_out(true)]
    );
    let revoked = moved(Mover::Settling, true, true);
    assert_eq!(
        passages("S,1 A,1,7 T,256", "A,1,8"),
        [became(true), revoked]
    );
    assert_eq!(passages("A,1,7 S,1", "D"), []);
}

/// How many answers name this line, with a reason that this holds of.
fn named(answers: &[Answer], line: u64, of: impl Fn(Reason) -> bool) -> usize {
    let told = answers.iter().flatten();
    told.filter(|why| why.line == line && of(why.reason))
        .count()
}

fn is_moved(reason: Reason) -> bool {
    !matches!(reason, Reason::NeverBuffered | Reason::StillQueued)
}

/// Each accepted arrival has a reason, at most one message is disposed of at a D, as many are moved at a
/// line as its report tells, and those left are still queued.
#[test]
fn reasons_of_random_scripts_agree_with_the_reports() {
    for flavour in &FLAVOURS {
        let script = flavour.script(7, 400);
        let answers = answers(&script);
        let mut line = 0;
        let node = script::run(script.as_slice(), |text, report| {
            line += 1;
            let operation = script::read(text);
            let arrived = matches!(operation, Operation::Arrival { .. }) && report.accepted();
            let unreadable = report.answer == Refusal::Unknown as u32;
            let answer = answers[line as usize];
            assert_eq!(answer.is_ok(), arrived);
            assert_eq!(answer == Err(Refused::Unreadable), unreadable);
            assert_eq!(named(&answers, line, is_moved), report.moved as usize);
            let disposed = named(&answers, line, |reason| reason == Reason::NeverBuffered);
            assert!(disposed <= usize::from(operation == Operation::Dispose));
            Ok::<(), std::io::Error>(())
        });
        let node = node.expect("memory is read without error");
        let queued = |reason| reason == Reason::StillQueued;
        assert_eq!(named(&answers, line, queued), node.queue.len());
        assert_eq!(answers.len(), line as usize + 2);
    }
}
