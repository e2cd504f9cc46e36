//! Why messages were buffered: the rows of the vectors, the reasons in words, the memory that is left, and
//! memory and parts that are too short.

use std::fs;

use fugu::{answer, calls, why, Reason, Refused, Why, SIZE, WHY};

use crate::support::{lines, scripts, started};

/// What stands in a part before a call.
const BEFORE: u32 = 0xdead_beef;

/// The memory after a script, and behind a node's words so many of 9.
fn played(script: &[u8], behind: usize) -> Vec<u32> {
    let mut node = started();
    for line in lines(script) {
        node.line(line);
    }
    let mut memory = node.into_memory();
    memory.resize(SIZE + behind, 9);
    memory
}

/// The answer as a row of a `.why` file has it.
fn row(line: u32, answer: Result<Why, Refused>) -> String {
    match answer {
        Ok(Why { reason, line: at }) => format!("{line} reason {} line {at}", reason as u32),
        Err(refused) => format!("{line} refused {}", refused as u32),
    }
}

#[test]
fn every_row_of_the_vectors() {
    for path in scripts() {
        let script = fs::read(&path).expect("a script");
        let rows = fs::read_to_string(path.with_extension("why")).expect("its rows");
        assert!(rows.lines().count() >= 2, "{}", path.display());
        for (line, expected) in (0..).zip(rows.lines()) {
            assert_eq!(
                row(line, why(&script, line)),
                expected,
                "{}",
                path.display()
            );
        }
    }
}

#[test]
fn each_reason_in_words() {
    let words = Reason::ALL.map(|reason| format!("{} {reason}", reason as u32));
    assert_eq!(
        words,
        [
            "1 never buffered, disposed of",
            "2 still in the hardware queue",
            "3 its group wasn't running when it became head",
            "4 older messages of its group were waiting in the buffer",
            "5 its group was revoked",
            "6 timeout",
            "7 the processor was taken",
        ]
    );
    let script = b"X\nS,1\nA,1,7\nO";
    let taken = why(script, 3).expect("a reason");
    assert_eq!(
        taken.to_string(),
        "reason 7 at line 4: the processor was taken"
    );
    let told = [1, 2, u32::MAX].map(|line| why(script, line).expect_err("a refusal").to_string());
    let none = "refused with 17: it is no accepted arrival of this script";
    assert_eq!(told, ["refused with 2: it can't be read", none, none]);
}

#[test]
fn the_memory_is_left_as_after_the_script() {
    for path in scripts() {
        let script = fs::read(&path).expect("a script");
        let expected = played(&script, 5);
        // A line that is refused, and some that have a reason.
        for line in [0, 1, 2, 3, 8] {
            let mut memory = vec![9; SIZE + 5];
            let mut part = [BEFORE; WHY];
            assert_eq!(
                calls::why(&mut memory, &script, line, &mut part) as usize,
                WHY
            );
            assert!(memory == expected, "{}, line {line}", path.display());
        }
    }
}

#[test]
fn memory_too_short_is_refused_first_and_left() {
    for length in [0, 1, WHY, SIZE - 1] {
        for (script, line) in [(&b"A,1,7\n"[..], 1), (b"?", 1), (b"", 0)] {
            let mut memory = vec![9; length];
            let mut part = [BEFORE; WHY + 1];
            assert_eq!(
                calls::why(&mut memory, script, line, &mut part) as usize,
                WHY
            );
            assert_eq!(part, [answer::NOT_NODE, 0, 0, 0, BEFORE], "{length} words");
            assert_eq!(memory, vec![9; length]);
        }
    }
}

#[test]
fn a_part_too_short_changes_nothing() {
    for words in [0, SIZE - 1, SIZE] {
        for length in 0..WHY {
            let mut memory = vec![9; words];
            let mut part = vec![BEFORE; length];
            assert_eq!(calls::why(&mut memory, b"A,1,7\n", 1, &mut part), 0);
            assert_eq!(memory, vec![9; words], "a part of {length}");
            assert_eq!(part, vec![BEFORE; length]);
        }
    }
}

#[test]
fn a_longer_part_keeps_what_stands_behind() {
    let mut memory = vec![0; SIZE];
    let mut part = [BEFORE; WHY + 2];
    let written = calls::why(&mut memory, b"S,1\nA,2,7\n", 2, &mut part);
    assert_eq!(written as usize, WHY);
    assert_eq!(part, [0, 3, 2, 0, BEFORE, BEFORE]);
}
