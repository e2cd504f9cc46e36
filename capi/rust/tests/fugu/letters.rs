//! Letters and counts of numbers: which are an operation, and that a line and a step by its letter
//! are the same.

use fugu::answer::{ACCEPTED, UNREADABLE};

use crate::support::{after, only, report, started, taken_apart};

/// Whether a letter takes this count of numbers.
fn taken(letter: u8, count: usize) -> bool {
    match letter {
        b'A' => count >= 1,
        b'S' | b'I' | b'T' | b'E' | b'P' | b'L' => count == 1,
        b'B' => count <= 1,
        b'O' | b'M' | b'D' | b'N' | b'C' => count == 0,
        _ => false,
    }
}

#[test]
fn every_letter_with_every_count() {
    let numbers = [1; 80];
    for letter in 0..=u8::MAX {
        for count in [0, 1, 2, 3, 8, 9, 10, 63, 64, 65, 80] {
            let mut node = started();
            let report = node.step(letter, &numbers[..count]);
            if taken(letter, count) {
                assert_ne!(
                    report.answer, UNREADABLE,
                    "letter {letter}, {count} numbers"
                );
            } else {
                assert_eq!(report, only(UNREADABLE), "letter {letter}, {count} numbers");
                assert_eq!(node, started(), "letter {letter}, {count} numbers");
            }
        }
    }
}

/// The one number of B says whether force goes on: 0 or 1.
#[test]
fn only_0_and_1_are_numbers_of_begin() {
    for number in [0, 1, 2, 3, 255, 256, 65_537, u32::MAX] {
        let mut node = after(&["S,1"]);
        let report = node.step(b'B', &[number]);
        if number <= 1 {
            assert_eq!(report, only(ACCEPTED), "{number}");
        } else {
            assert_eq!(report, only(UNREADABLE), "{number}");
            assert_eq!(node, after(&["S,1"]), "{number}");
        }
    }
}

#[test]
fn unreadable_lines() {
    let lines: [&[u8]; 26] = [
        b"",
        b"m",
        b"o",
        b"i,1",
        b"c",
        b"CC",
        b"Q,1",
        b"S,1\r",
        b"S, 1",
        b"A",
        b"S",
        b"M,0",
        b"O,",
        b"O,1",
        b"C,",
        b"C,0",
        b"I",
        b"I,",
        b"I,1,1",
        b"B,2",
        b"B,1,1",
        b"B,",
        b"A,1,",
        b"T,-1",
        b"S,00000000001",
        b"M\n",
    ];
    for line in lines {
        assert_eq!(
            started().line(line),
            only(UNREADABLE),
            "{}",
            line.escape_ascii()
        );
    }
}

#[test]
fn a_line_and_its_letter_are_the_same_step() {
    let script = "\
        C\nS,1\nC\nA,1,7\nA,2,5,6\nC\nN\nE,0\nE,1\nT,256\nC\nD\nN\n\
        S,2\nM\nD\nP,9\nP,4294967295\nL,64\nL,3\nA,1\nA,9,1\n\
        A,1,1,2,3,4,5,6,7,8,9\nB\nB,0\nB,1\nT,300\nT,212\nA,2,7\nS,9\nT,0\nD\nN\n\
        A,2,8\nO\nO\nC\nI,0\nI,9\nI,2\nI,1\nC\nD";
    let (mut by_line, mut by_letter) = (started(), started());
    for line in script.lines() {
        let (letter, numbers) = taken_apart(line.as_bytes()).expect("the line is readable");
        assert_eq!(
            by_line.line(line.as_bytes()),
            by_letter.step(letter, &numbers),
            "{line}"
        );
        assert_eq!(by_line, by_letter, "{line}");
    }
}

/// S is O and I in one step: the memory is the same, word for word, and what both moved is summed.
#[test]
fn a_switch_is_two_acts() {
    let lines = ["S,1", "A,1,7", "A,2,5"];
    let (mut by_one, mut by_two) = (after(&lines), after(&lines));
    assert_eq!(by_one.step(b'S', &[2]), report("0,0,0,2,2"));
    assert_eq!(by_two.step(b'O', &[]), report("0,0,0,0,2"));
    assert_eq!(by_two.step(b'I', &[2]), report("0,0,0,2,0"));
    assert_eq!(by_one, by_two);
}
