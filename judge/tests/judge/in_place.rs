//! Order 4, sentence by sentence: where a word is read, and that it is the head message's.

use judge::memory::{self, head};
use judge::node::{Event, Node, Operation, Refusal, Report, Standing};

use crate::support::{after, random_runs};

fn word(index: usize) -> Operation {
    let index = index as u32;
    Operation::MessageWord { index }
}

/// An accepted E's report.
fn read(value: u32, standing: Standing) -> Report {
    Report {
        value,
        events: vec![Event::WordRead(standing)],
        ..Report::default()
    }
}

#[test]
fn a_word_is_read_where_its_message_stands() {
    for (lines, standing) in [
        ("S,1 A,1,7,8", Standing::Queued),
        ("S,1 A,1,7,8 A,1,5,6 A,2,4", Standing::Queued),
        ("A,1,5,6 S,1 D A,1,7,8", Standing::Queued),
        ("A,1,7,8 S,1", Standing::FirstPlace),
        ("S,1 A,1,7,8 T,256", Standing::FirstPlace),
        ("S,1 B,1 T,256 A,1,7,8", Standing::FirstPlace),
        ("8*A,1,5,6 A,1,7,8 S,1 8*D", Standing::FirstPlace),
        ("A,1,5,6 A,1,7,8 S,1 D", Standing::BehindUsedUp),
        ("7*A,1,5,6 2*A,1,7,8 S,1 7*D", Standing::BehindUsedUp),
    ] {
        let mut node = after(lines);
        assert_eq!(node.step(&word(0)), read(7, standing), "{lines}");
        assert_eq!(node.step(&word(1)), read(8, standing), "{lines}");
        assert_eq!(node, after(lines));
    }
}

#[test]
fn a_refused_read_reads_no_word() {
    for (lines, refusal) in [
        ("A,1,7,8", Refusal::NobodyRuns),
        ("A,1,7,8 S,2", Refusal::LineEmpty),
        ("A,1,7,8 S,1", Refusal::PastMessage),
        ("S,1 A,1,7,8", Refusal::PastMessage),
    ] {
        assert_eq!(after(lines).step(&word(2)), Report::refused(refusal));
    }
}

/// "an accepted E's value is word i of the part that 01's library call shows", and none past it is
/// accepted.
#[test]
fn the_words_read_are_those_of_the_head() {
    for run in random_runs(1, 1000) {
        let mut node = Node::power_on();
        for operation in run {
            node.step(&operation);
            let before = memory::words_of(&node);
            let mut memory = before.clone();
            for (index, value) in head(&before).iter().enumerate() {
                let report = memory::step(&mut memory, &word(index));
                assert_eq!((report.answer, report.value), (0, *value), "{operation:?}");
            }
            let past = memory::step(&mut memory, &word(head(&before).len()));
            assert!(!past.accepted(), "{operation:?}");
            assert_eq!(memory, before, "{operation:?}");
        }
    }
}
