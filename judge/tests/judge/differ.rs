//! Where two nodes differ, in the words of a state.

use judge::node::Node;
use judge::state;

use crate::support::{after, random_runs};

/// What is told of the nodes after two scripts.
fn told(one: &str, two: &str) -> Vec<String> {
    state::differences(&after(one), &after(two))
}

#[test]
fn the_same_node_differs_in_nothing() {
    for script in ["", "S,1 B,1 A,1,7 T,256 P,9", "300*A,1,7 S,1 D"] {
        assert!(told(script, script).is_empty());
    }
}

#[test]
fn numbers_and_flags_are_told_by_name() {
    assert_eq!(told("S,1", "S,2"), ["running: 1, 2"]);
    assert_eq!(
        told("S,1 B,1 T,9", "S,1 B"),
        ["timer: 9, 0", "group 1 force: 1, 0"]
    );
    assert_eq!(
        told("S,3 B,1 T,256 P,7", "S,3 P,7"),
        [
            "group 3 atomic: 1, 0",
            "group 3 force: 1, 0",
            "group 3 revoked: 1, 0",
        ]
    );
    let in_and_out = told("A,1,7 256*A,2,7 S,1", "A,1,7 256*A,2,7");
    assert!(in_and_out.contains(&"out: 2, 1".to_string()));
    assert!(in_and_out.contains(&"in: 1, 0".to_string()));
}

#[test]
fn messages_are_told_whole_or_as_none() {
    assert_eq!(
        told("S,1 A,1,7 A,2,5,6", "S,1 A,1,8"),
        [
            "queued place 0: 1 words 7 0 0 0 0 0 0 0, 1 words 8 0 0 0 0 0 0 0",
            "queued place 1: 2 words 5 6 0 0 0 0 0 0, none",
        ]
    );
    assert_eq!(
        told("A,1,7", "A,1,7 A,1,0,0"),
        [
            "group 1 n: 1, 2",
            "f0 place 1: none, length 2 words 0 0 0 0 0 0 0 0",
        ]
    );
    assert_eq!(
        told("257*A,1,7", "256*A,1,7 A,1,8")[..],
        ["f0 place 0: length 1 words 7 0 0 0 0 0 0 0, length 1 words 8 0 0 0 0 0 0 0"]
    );
}

#[test]
fn of_lists_the_part_that_differs_is_told() {
    let descriptors = [
        ("P,1", "", "from place 0: 1, none"),
        ("P,1 P,2 P,3", "P,1", "from place 1: 2 3, none"),
        ("P,1 P,3", "P,1 P,2 P,3", "from place 1: none, 2"),
        ("P,1 P,2 P,3", "P,1 P,4 P,5 P,3", "from place 1: 2, 4 5"),
        ("P,1 P,1", "P,1 P,1 P,1", "from place 2: none, 1"),
        ("P,4294967295", "P,0", "from place 0: 4294967295, 0"),
    ];
    for (one, two, part) in descriptors {
        let (one, two) = (format!("S,1 {one}"), format!("S,1 {two}"));
        assert_eq!(told(&one, &two), [format!("group 1 descriptor {part}")]);
    }
    // A frame gone from the front of the free line: the rest of it is the same.
    assert_eq!(
        told("", "A,1,7"),
        [
            "free from place 0: 0, none",
            "entry from place 0: none, 0",
            "group 1 n: 0, 1",
            "group 1 pages from place 0: none, f0",
            "f0 place 0: none, length 1 words 7 0 0 0 0 0 0 0",
        ]
    );
    let swapped = told("256*A,1,7", "257*A,1,7");
    assert!(swapped.contains(&"swap-free from place 0: 0, none".to_string()));
}

/// A page in another frame among them.
#[test]
fn the_examples_of_the_document_are_told_so() {
    let document = include_str!("../../../docs/DUMPS.md");
    let rest = "A,1,8,9 S,2 D N S,1 D";
    let asleep = format!("A,2,5,6 A,1,7 {rest} N");
    let turned = format!("A,1,7 A,2,5,6 {rest} N");
    let unended = format!("A,2,5,6 A,1,7 {rest}");
    for (one, two, count) in [
        ("S,1 A,1,7 P,5", "A,1,7 S,1", 7),
        (&asleep, &turned, 5),
        (&asleep, &unended, 1),
    ] {
        let told = told(one, two);
        assert_eq!(told.len(), count);
        let told = format!("\n{}\n```\n", told.join("\n"));
        assert!(document.contains(&told), "{told}");
    }
}

/// Whatever a step changes is told, and nothing else is; the other way round with the values changed about.
#[test]
fn nodes_differ_exactly_where_their_states_do() {
    for run in random_runs(2, 150) {
        let mut node = Node::power_on();
        for operation in run {
            let before = node.clone();
            node.step(&operation);
            let told = state::differences(&before, &node);
            assert_eq!(told.is_empty(), state::text(&before) == state::text(&node));
            let back = state::differences(&node, &before);
            let turned: Vec<String> = told.iter().map(|told| turned(told)).collect();
            assert_eq!(back, turned);
        }
    }
}

fn turned(difference: &str) -> String {
    let (name, values) = difference.split_once(": ").expect("a name");
    let (one, two) = values.split_once(", ").expect("two values");
    format!("{name}: {two}, {one}")
}
