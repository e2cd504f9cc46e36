//! Pages that go to swap space and back.

use fugu::{calls, Node, Paging, PAGING, SIZE};

use crate::support::{after, arrivals, started};

/// What stands in a part before a call.
const BEFORE: u32 = 0xdead_beef;
/// Where the count of pages sent out stands in the memory, that of pages brought in behind it.
const SENT_OUT: usize = 8006;

fn counts(sent_out: u32, brought_in: u32) -> Paging {
    Paging {
        sent_out,
        brought_in,
    }
}

/// So many messages for group 2, which does not run.
fn filled(messages: usize) -> Node<Vec<u32>> {
    after(&arrivals(&[], "A,2,7", messages))
}

#[test]
fn none_while_there_are_frames() {
    assert_eq!(started().paging(), Paging::default());
    assert_eq!(filled(256).paging(), Paging::default());
}

#[test]
fn each_page_more_sends_one_out() {
    assert_eq!(filled(257).paging(), counts(1, 0));
    assert_eq!(filled(264).paging(), counts(1, 0));
    assert_eq!(filled(768).paging(), counts(64, 0));
}

#[test]
fn an_exchange_is_one_of_each() {
    let mut node = filled(257);
    node.line(b"S,2");
    assert_eq!(node.paging(), counts(2, 1));
    assert_eq!(node.head(), [7]);
}

#[test]
fn a_page_comes_into_a_frame_that_is_freed() {
    let mut node = filled(257);
    node.line(b"S,2");
    for _ in 0..8 {
        node.line(b"D");
    }
    assert_eq!(node.paging(), counts(2, 2));
}

/// Its frame then holds the message that it was needed for, its swap page nothing.
#[test]
fn a_page_leaves_no_word_behind() {
    let mut node = filled(257);
    assert_eq!(node.memory()[1092..1094], [1, 7]);
    assert_eq!(node.memory()[1094..1164], [0; 70]);
    node.line(b"S,2");
    assert_eq!(node.memory()[3396..3398], [1, 7]);
    for _ in 0..8 {
        node.line(b"D");
    }
    assert_eq!(node.memory()[3396..3468], [0; 72]);
}

#[test]
fn counts_stay_at_the_largest_number() {
    let mut memory = filled(257).into_memory();
    memory[SENT_OUT..][..2].copy_from_slice(&[u32::MAX - 1, u32::MAX]);
    let mut node = Node::over(memory);
    assert_eq!(node.paging(), counts(u32::MAX - 1, u32::MAX));
    node.line(b"S,2");
    assert_eq!(node.paging(), counts(u32::MAX, u32::MAX));
    for _ in 0..8 {
        node.line(b"A,3,7");
    }
    assert_eq!(node.paging(), counts(u32::MAX, u32::MAX));
}

#[test]
fn zeros_of_no_node() {
    let mut memory = filled(257).into_memory();
    memory[1] = 1;
    assert_eq!(Node::over(memory).paging(), Paging::default());
    assert_eq!(Node::over(vec![]).paging(), Paging::default());
    assert_eq!(Node::over(vec![9; SIZE]).paging(), Paging::default());
}

#[test]
fn a_part_too_short_is_left() {
    let memory = filled(257).into_memory();
    assert_eq!(calls::paging(&memory, &mut []), 0);
    let mut part = [BEFORE];
    assert_eq!(calls::paging(&memory, &mut part), 0);
    assert_eq!(part, [BEFORE]);
    assert_eq!(calls::paging(&[], &mut part), 0);
    assert_eq!(part, [BEFORE]);
}

#[test]
fn a_longer_part_keeps_what_stands_behind() {
    let memory = filled(257).into_memory();
    let mut part = [BEFORE; 4];
    assert_eq!(calls::paging(&memory, &mut part) as usize, PAGING);
    assert_eq!(part, [1, 0, BEFORE, BEFORE]);
}
