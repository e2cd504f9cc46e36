//! Memory: power-on, the test, and memory that is too short, damaged or longer than a node.

use fugu::{answer, calls, Node, Report, REPORT, SIZE};

use crate::support::{after, only, report, started};

#[test]
fn the_size_is_told() {
    assert_eq!(calls::size() as usize, SIZE);
}

#[test]
fn power_on_writes_every_word_of_a_node() {
    let node = Node::power_on(vec![u32::MAX; SIZE]).expect("the memory is long enough");
    let mut words = vec![0; SIZE];
    words[3] = 32;
    for frame in 0..32 {
        words[164 + frame as usize] = frame;
    }
    words[8004] = 64;
    for page in 32..96 {
        words[7976 + page as usize] = page;
    }
    assert_eq!(node.memory(), words);
    assert!(node.test());
}

#[test]
fn power_on_can_come_again() {
    let mut node = after(&["S,1", "A,1,7"]);
    assert_eq!(node.restart(), Report::default());
    assert_eq!(node, started());
}

#[test]
fn memory_too_short_is_refused() {
    for length in [0, 1, REPORT, SIZE - 1] {
        let before = started().into_memory()[..length].to_vec();
        assert_eq!(Node::power_on(before.clone()), Err(only(answer::NOT_NODE)));
        let mut node = Node::over(before.clone());
        assert_eq!(node.restart(), only(answer::NOT_NODE));
        assert!(!node.test());
        assert_eq!(node.step(b'S', &[1]), only(answer::NOT_NODE));
        assert_eq!(node.line(b"S,1"), only(answer::NOT_NODE));
        assert_eq!(node.head_part(), 0..0);
        assert_eq!(node.head(), []);
        assert_eq!(node.into_memory(), before);
    }
}

#[test]
fn memory_behind_a_node_is_never_touched() {
    let mut node = Node::power_on(vec![9; SIZE + 100]).expect("the memory is long enough");
    for line in ["S,1", "A,1,7", "T,256", "D"] {
        assert!(node.line(line.as_bytes()).is_accepted());
    }
    assert_eq!(node.memory()[SIZE..], [9; 100]);
}

#[test]
fn damaged_memory_is_refused_and_left() {
    // A timer with an empty queue, a ninth group, 33 free frames, a frame that stands twice; 65 free
    // swap pages, one that stands twice, a frame in the swap line, one that entered and is not in use;
    // force and revoked without atomic; a length and a word in free frames, and in free swap pages.
    for (at, word) in [
        (1, 1),
        (0, 9),
        (3, 33),
        (164, 1),
        (8004, 65),
        (8008, 33),
        (8008, 0),
        (8005, 1),
        (FORCE, 1),
        (REVOKED, 1),
        (1092, 1),
        (3395, 7),
        (3396, 1),
        (8003, 7),
    ] {
        damaged(started(), at, word);
    }
    // A length and a word in a used-up place, and behind the last message.
    let buffered = ["A,1,7", "A,1,8", "S,1", "D"];
    for (at, word) in [(1092, 1), (1100, 7), (1110, 1), (1163, 7)] {
        damaged(after(&buffered), at, word);
    }
    // In a section with a message at the head of the queue: flags of 2, and a head of a revoked group.
    let direct = ["S,1", "B", "A,1,7", "T,9"];
    for (at, word) in [(FORCE, 2), (REVOKED, 2), (REVOKED, 1)] {
        damaged(after(&direct), at, word);
    }
    // Timers with an empty queue that are not the running group's.
    damaged(after(&["S,1", "B"]), 1, 9);
    damaged(after(&["S,1", "B,1", "S,2", "B"]), 1, 9);
    damaged(after(&["S,1", "B,1", "S,0"]), 1, 9);
}

#[test]
fn a_message_disposed_of_leaves_no_word() {
    let mut node = after(&["A,1,7,8,9", "A,1,5", "S,1", "D"]);
    assert_eq!(node.memory()[1092..1103], [0, 0, 0, 0, 0, 0, 0, 0, 0, 1, 5]);
    assert!(node.line(b"D").is_accepted());
    assert!(node.memory()[1092..8004].iter().all(|&word| word == 0));
}

/// Where force and revoked of group 1 stand.
const FORCE: usize = 198;
const REVOKED: usize = 199;

/// A node is none with another word at an address.
fn damaged(node: Node<Vec<u32>>, at: usize, word: u32) {
    let mut memory = node.into_memory();
    assert_ne!(memory[at], word, "word {at}");
    memory[at] = word;
    let before = memory.clone();
    let mut node = Node::over(memory);
    assert!(!node.test(), "word {at}");
    assert_eq!(node.step(b'S', &[1]), only(answer::NOT_NODE), "word {at}");
    assert_eq!(node.line(b"M"), only(answer::NOT_NODE), "word {at}");
    assert_eq!(node.head_part(), 0..0, "word {at}");
    assert_eq!(node.into_memory(), before, "word {at}");
}

#[test]
fn flags_and_a_forced_timer_that_a_node_may_have() {
    let mut memory = after(&["S,1", "B"]).into_memory();
    for (at, word) in [(REVOKED, 1), (FORCE, 1), (1, 255)] {
        memory[at] = word;
        assert!(Node::over(&mut memory[..]).test(), "word {at}");
    }
    let mut node = Node::over(memory);
    assert_eq!(node.line(b"T,1"), report("0,0,3,0,0"));
    assert_eq!(node.line(b"N"), report("0,0,2,0,0"));
    assert_eq!(node, after(&["S,1"]));
}

#[test]
fn memory_that_is_no_node_comes_before_what_is_unreadable() {
    let mut node = Node::over(vec![0; SIZE]);
    assert_eq!(node.step(b'Q', &[]), only(answer::NOT_NODE));
    assert_eq!(node.step(b'M', &[1]), only(answer::NOT_NODE));
    assert_eq!(node.line(b""), only(answer::NOT_NODE));
}

#[test]
fn lent_memory_is_the_callers() {
    let mut memory = vec![0; SIZE];
    let mut node = Node::power_on(&mut memory[..]).expect("the memory is long enough");
    node.step(b'S', &[3]);
    assert_eq!(memory[0], 3);
    assert_eq!(calls::test(&memory), 1);
}
