//! Order 1, sentence by sentence: which page goes, where it goes, and what comes back.

use judge::memory;
use judge::node::{Node, PAGES};

use crate::support::{after, pages, random_runs, step, S0};

fn counts(node: &Node) -> (u32, u32) {
    (node.sent_out, node.brought_in)
}

#[test]
fn the_page_longest_in_a_frame_is_sent_out() {
    let node = after("256*A,1,7");
    assert!(node.free.is_empty());
    assert_eq!(counts(&node), (0, 0));
    let node = step(&node, "A,1,8");
    assert!(pages(&node, 1)
        .iter()
        .copied()
        .eq([S0].into_iter().chain(1..32).chain([0])));
    assert!(node.entry.iter().copied().eq((1..32).chain([0])));
    assert!(node.swap_free.iter().copied().eq(S0 + 1..PAGES));
    assert_eq!(counts(&node), (1, 0));
}

/// Its first place is used up, and its last is not written yet.
#[test]
fn a_page_goes_whole() {
    let node = after("A,3,1,2 6*A,3,5,6 S,3 D S,0 248*A,1,7");
    let before = node.pages[0];
    let node = step(&node, "A,1,8");
    assert_eq!(pages(&node, 3), &[S0]);
    assert_eq!(node.pages[S0], before);
    assert_eq!(before.map(|place| place.length), [0, 2, 2, 2, 2, 2, 2, 0]);
}

#[test]
fn the_running_groups_first_page_is_spared() {
    let node = after("A,1,7 S,1 248*A,2,7");
    assert_eq!(node.entry.front(), Some(&0));
    let node = step(&node, "A,2,8");
    assert_eq!(pages(&node, 1), &[0]);
    assert_eq!(pages(&node, 2).front(), Some(&S0));
    assert!(node
        .entry
        .iter()
        .copied()
        .eq([0].into_iter().chain(2..32).chain([1])));
    // While nobody runs, nothing is spared.
    let node = step(&after("A,1,7 S,1 S,0 248*A,2,7"), "A,2,8");
    assert_eq!(pages(&node, 1), &[S0]);
}

/// Its second page is not.
#[test]
fn only_the_first_page_is_spared() {
    let node = after("16*A,1,7 S,1 240*A,2,7 A,2,8");
    assert_eq!(pages(&node, 1), &[0, S0]);
}

#[test]
fn writing_does_not_renew_the_entry() {
    let node = after("A,1,7 248*A,2,7 7*A,1,7");
    assert_eq!(node.entry.front(), Some(&0));
    assert_eq!(pages(&step(&node, "A,2,8"), 1), &[S0]);
}

#[test]
fn a_page_is_exchanged_before_it_is_written() {
    let node = after("A,1,7 249*A,2,7");
    assert_eq!(pages(&node, 1), &[S0]);
    let node = step(&node, "A,1,8");
    assert_eq!(pages(&node, 1), &[1]);
    assert_eq!(pages(&node, 2).front(), Some(&S0));
    assert_eq!(node.pages[1][1].words[0], 8);
    assert!(node.swap_free.iter().copied().eq(S0 + 1..PAGES));
    assert_eq!(node.entry.back(), Some(&1));
    assert_eq!(counts(&node), (2, 1));
}

#[test]
fn a_page_is_brought_into_a_free_frame_before_it_is_written() {
    // Group 3 uses up its only page, the last to have entered: frame 0.
    let node = after("A,1,7 248*A,2,7 A,3,7 S,3 D S,0");
    assert_eq!((pages(&node, 1), &node.free), (&[S0].into(), &[0].into()));
    let node = step(&node, "A,1,8");
    assert_eq!(pages(&node, 1), &[0]);
    assert!(node.free.is_empty());
    assert!(node
        .swap_free
        .iter()
        .copied()
        .eq((S0 + 1..PAGES).chain([S0])));
    assert_eq!(counts(&node), (1, 1));
}

#[test]
fn a_page_with_all_places_written_is_not_brought_in() {
    let node = after("8*A,1,7 249*A,2,7");
    assert_eq!(pages(&node, 1), &[S0]);
    let node = step(&node, "A,1,8");
    assert_eq!(pages(&node, 1), &[S0, 1]);
    assert_eq!(counts(&node), (2, 0));
}

#[test]
fn a_running_groups_first_page_is_exchanged() {
    let node = step(&after("A,1,7 249*A,2,7"), "S,1");
    assert_eq!(pages(&node, 1), &[1]);
    assert_eq!(pages(&node, 2).front(), Some(&S0));
    assert_eq!(counts(&node), (2, 1));
    assert_eq!(node.line(1).next(), Some([7].as_slice()));
}

#[test]
fn a_running_groups_next_page_comes_into_the_frame_that_it_left() {
    let node = after("257*A,1,7 S,1 7*D");
    assert_eq!(
        pages(&node, 1).iter().take(2).collect::<Vec<_>>(),
        [&1, &S0]
    );
    let node = step(&node, "D");
    assert_eq!(pages(&node, 1).front(), Some(&1));
    assert!(node.free.is_empty());
    assert_eq!(node.swap_free.back(), Some(&S0));
    assert_eq!(counts(&node), (2, 2));
}

#[test]
fn counts_stay_at_the_largest_number() {
    let mut node = after("A,1,7 249*A,2,7");
    (node.sent_out, node.brought_in) = (u32::MAX - 1, u32::MAX);
    let node = step(&node, "S,1");
    assert_eq!(counts(&node), (u32::MAX, u32::MAX));
    assert_eq!(counts(&step(&node, "S,2")), (u32::MAX, u32::MAX));
}

/// All 96 pages are in use, and every page can still be brought in.
#[test]
fn with_no_page_free_pages_are_exchanged() {
    let node = after("8*A,1,7 760*A,2,7");
    assert!(node.free.is_empty() && node.swap_free.is_empty());
    let node = step(&node, "S,1");
    assert_eq!(counts(&node), (65, 1));
    let node = step(&node, "S,2");
    assert_eq!(counts(&node), (66, 2));
    assert_eq!(memory::read(&memory::words_of(&node)), Ok(node));
}

/// An exchange moves nothing on balance, and only a page brought in gives its swap page back.
#[test]
fn as_many_pages_are_out_as_were_sent_and_not_brought_back() {
    let mut most = 0;
    for run in random_runs(2, 1500) {
        let mut node = Node::power_on();
        for operation in run {
            node.step(&operation);
            let out = 64 - node.swap_free.len() as u32;
            assert_eq!(node.sent_out - node.brought_in, out);
            most = most.max(out);
        }
    }
    assert_eq!(most, 64);
}
