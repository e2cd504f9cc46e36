//! The head message where it stands, and its words by E.

use fugu::{answer, Node, Report};

use crate::support::{after, only, started};

/// The head has these words, E reads each, and none past them.
fn shows(node: &mut Node<Vec<u32>>, words: &[u32]) {
    assert_eq!(node.head(), words);
    for (index, &value) in words.iter().enumerate() {
        let read = Report {
            value,
            ..Report::default()
        };
        assert_eq!(node.step(b'E', &[index as u32]), read);
    }
    let past = node.step(b'E', &[words.len() as u32]);
    assert_eq!(past, only(answer::PAST_MESSAGE));
}

#[test]
fn nobody_runs() {
    assert_eq!(started().head_part(), 0..0);
    let node = after(&["A,1,7"]);
    assert_eq!(node.head_part(), 0..0);
    assert_eq!(node.head(), []);
}

#[test]
fn no_message_waits() {
    assert_eq!(after(&["S,1"]).head_part(), 0..0);
    assert_eq!(after(&["S,1", "A,2,7"]).head(), []);
}

#[test]
fn at_the_head_of_the_queue() {
    let mut node = after(&["S,1", "A,1,7,8,9"]);
    assert_eq!(node.head_part(), 6..9);
    shows(&mut node, &[7, 8, 9]);
}

#[test]
fn in_a_frame() {
    let mut node = after(&["S,1", "A,1,7,8,9", "T,256"]);
    assert_eq!(node.head_part(), 1093..1096);
    shows(&mut node, &[7, 8, 9]);
}

#[test]
fn behind_used_up_places() {
    let mut node = after(&["S,1", "A,1,5", "A,1,6,7", "A,1,8", "T,256", "D"]);
    assert_eq!(node.head_part(), 1102..1104);
    shows(&mut node, &[6, 7]);
    node.line(b"D");
    shows(&mut node, &[8]);
}

#[test]
fn all_eight_words() {
    let mut node = after(&["S,8", "A,8,1,2,3,4,5,6,7,4294967295"]);
    shows(&mut node, &[1, 2, 3, 4, 5, 6, 7, u32::MAX]);
}
