//! The node in lent memory: where each number stands, the memory test, and what a step leaves
//! alone. The numbers of the map stand here a second time, as docs/MEMORY.md has them.

use judge::memory::{self, broken_clause, clauses, head, head_part, paging, power_on, step};
use judge::node::{Node, Operation, Refusal, Report, Trap};
use judge::script;

use crate::support;
use crate::support::{memory_after, random_runs};

const RUNNING: usize = 0;
const TIMER: usize = 1;
const QUEUE_COUNT: usize = 2;
const FREE_COUNT: usize = 3;
const FREE: usize = 164;
const SWAP_COUNT: usize = 8004;
const ENTRY_COUNT: usize = 8005;
const SENT_OUT: usize = 8006;
const BROUGHT_IN: usize = 8007;
const SWAP: usize = 8008;
const ENTRY: usize = 8072;

const ATOMIC: usize = 0;
const PENDING: usize = 1;
const FORCE: usize = 2;
const REVOKED: usize = 3;
const USED_UP: usize = 4;
const MESSAGES: usize = 5;
const LIST_COUNT: usize = 6;
const DESCRIPTOR_COUNT: usize = 7;
const DESCRIPTOR: usize = 8;
const LIST: usize = 16;

fn queue(place: usize) -> usize {
    4 + 10 * place
}

fn record(group: usize) -> usize {
    196 + 112 * (group - 1)
}

fn page(page: usize, place: usize) -> usize {
    1092 + 72 * page + 9 * place
}

/// Running group 1 is direct with two messages in the queue and one of group 2 between them, the
/// timer at 5 and a descriptor of two words; group 3 has 8 buffered messages after 2 used-up
/// places in the frames 0 and 1.
fn busy() -> Vec<u32> {
    memory_after(
        "A,3,10,11 A,3,20,21 A,3,30,31 A,3,40 A,3,50 A,3,60 A,3,70 A,3,80 A,3,90 A,3,100 S,3 D D \
         S,1 P,9 P,8 A,1,7 A,2,5,6 A,1,4,4,4 T,5",
    )
}

/// A message of one word, 0, in each place of a page that has none: whatever else is changed, a length
/// that is read there is within the bounds.
fn fill(memory: &mut [u32], number: usize) {
    for place in (0..8).map(|place| page(number, place)) {
        memory[place] = memory[place].max(1);
    }
}

/// A number at the end of a line that stands behind its count.
fn join(memory: &mut [u32], (count, line): (usize, usize), number: u32) {
    memory[line + memory[count] as usize] = number;
    memory[count] += 1;
}

/// The last number of a line, taken from it.
fn take_last(memory: &mut [u32], (count, line): (usize, usize)) -> u32 {
    memory[count] -= 1;
    std::mem::take(&mut memory[line + memory[count] as usize])
}

fn list(group: usize) -> (usize, usize) {
    (record(group) + LIST_COUNT, record(group) + LIST)
}

/// Takes the last frame of the free line for a group's list.
fn take_last_free(memory: &mut [u32], group: usize) -> usize {
    let frame = take_last(memory, (FREE_COUNT, FREE));
    join(memory, list(group), frame);
    join(memory, (ENTRY_COUNT, ENTRY), frame);
    frame as usize
}

/// Takes the last swap page of the swap line for a group's list.
fn take_last_swap(memory: &mut [u32], group: usize) -> usize {
    let page = take_last(memory, (SWAP_COUNT, SWAP));
    join(memory, list(group), page);
    page as usize
}

#[test]
fn power_on_is_0_but_for_the_free_line_and_the_swap_line() {
    let mut memory = vec![0xdead_beef; 8104];
    assert_eq!(power_on(&mut memory), 0);
    let mut expected = vec![0; 8104];
    expected[FREE_COUNT] = 32;
    for place in 0..32 {
        expected[FREE + place] = place as u32;
    }
    expected[SWAP_COUNT] = 64;
    for place in 0..64 {
        expected[SWAP + place] = 32 + place as u32;
    }
    assert_eq!(memory, expected);
    assert_eq!(broken_clause(&memory), None);
    assert_eq!(memory::read(&memory), Ok(Node::power_on()));
}

#[test]
fn each_number_stands_where_the_map_says() {
    let mut expected = vec![0; 8104];
    let mut put = |at: usize, words: &[u32]| expected[at..at + words.len()].copy_from_slice(words);
    put(0, &[1, 5, 3, 30]);
    put(queue(0), &[1, 1, 7]);
    put(queue(1), &[2, 2, 5, 6]);
    put(queue(2), &[1, 3, 4, 4, 4]);
    put(FREE, &(2..32).collect::<Vec<u32>>());
    put(record(1), &[1, 1, 0, 0, 0, 0, 0, 2, 9, 8]);
    put(record(3), &[1, 0, 0, 0, 2, 8, 2, 0]);
    put(record(3) + LIST, &[0, 1]);
    put(page(0, 2), &[2, 30, 31]);
    for place in 3..10 {
        put(page(place / 8, place % 8), &[1, 10 * (place as u32 + 1)]);
    }
    put(SWAP_COUNT, &[64, 2, 0, 0]);
    put(SWAP, &(32..96).collect::<Vec<u32>>());
    put(ENTRY, &[0, 1]);
    assert_eq!(busy(), expected);
}

#[test]
fn the_flags_stand_where_the_map_says() {
    let memory = memory_after("S,8 B,1 T,511 S,7 A,7,1 T,256");
    assert_eq!(memory[record(8)..][..6], [1, 0, 1, 1, 0, 0]);
    assert_eq!(memory[record(7)..][..6], [1, 1, 0, 1, 0, 1]);
    assert_eq!(memory[TIMER], 0);
    let memory = memory_after("S,8 B,1 T,511");
    assert_eq!(memory[TIMER], 255);
}

#[test]
fn the_last_words_of_the_map_are_met() {
    let memory = memory_after(&"A,8,1,2,3,4,5,6,7,8 ".repeat(768));
    assert_eq!(memory[record(8) + MESSAGES], 768);
    let list: Vec<u32> = (32..96).chain(0..32).collect();
    assert_eq!(memory[record(8) + LIST..][..96], list);
    assert_eq!(memory[page(95, 7)..][..9], [8, 1, 2, 3, 4, 5, 6, 7, 8]);
    assert_eq!(memory[SWAP_COUNT..SWAP], [0, 32, 64, 0]);
    assert_eq!(memory[SWAP..ENTRY], [0; 64]);
    assert_eq!(memory[ENTRY..], (0..32).collect::<Vec<u32>>());
    assert_eq!(memory.len(), ENTRY + 32);
}

/// An exchange: the pages trade places, and the frame is the last to have entered.
#[test]
fn pages_in_swap_stand_where_the_map_says() {
    let memory = memory_after(&format!("{}S,2", "A,2,7 ".repeat(257)));
    let list: Vec<u32> = [1, 32].into_iter().chain(2..32).chain([0, 0]).collect();
    assert_eq!(memory[record(2) + LIST..][..34], list);
    let entry: Vec<u32> = (2..32).chain([0, 1]).collect();
    assert_eq!(memory[ENTRY..], entry);
    assert_eq!(memory[SWAP_COUNT..][..5], [63, 32, 2, 1, 33]);
    assert_eq!(memory[SWAP + 62..ENTRY], [95, 0]);
}

#[test]
fn a_message_disposed_of_leaves_0() {
    let memory = memory_after("A,1,7,8,9 A,1,4 S,1 D");
    assert_eq!(memory[page(0, 0)..][..9], [0; 9]);
    assert_eq!(memory[page(0, 1)..][..9], [1, 4, 0, 0, 0, 0, 0, 0, 0]);
    let memory = memory_after("A,1,7,8,9 A,1,4 S,1 D D");
    assert!(memory[page(0, 0)..SWAP_COUNT].iter().all(|&word| word == 0));
    assert_eq!(memory[record(1)..][..8], [1, 0, 0, 0, 0, 0, 0, 0]);
}

#[test]
fn a_queue_place_that_becomes_unused_is_0_whole() {
    let memory = memory_after("S,1 B A,1,7,7,7 A,1,8 D");
    assert_eq!(memory[queue(0)..][..10], [1, 1, 8, 0, 0, 0, 0, 0, 0, 0]);
    assert_eq!(memory[queue(1)..][..10], [0; 10]);
}

#[test]
fn a_frame_is_taken_from_the_front_and_freed_to_the_end() {
    let memory = memory_after("A,1,1 A,2,2 A,3,3 S,2 D S,1 D S,0 A,4,4");
    assert_eq!(memory[record(4) + LIST], 3);
    let line: Vec<u32> = (4..32).chain([1, 0]).collect();
    assert_eq!(memory[FREE_COUNT], 30);
    assert_eq!(memory[FREE..][..32], [line.as_slice(), &[0, 0]].concat());
}

#[test]
fn a_used_up_frame_is_freed_while_messages_remain() {
    let script = format!("{}S,1 {}", "A,1,7 ".repeat(9), "D ".repeat(8));
    let memory = memory_after(&script);
    assert_eq!(memory[record(1)..][..7], [1, 0, 0, 0, 0, 1, 1]);
    assert_eq!(memory[record(1) + LIST..][..2], [1, 0]);
    assert_eq!(memory[FREE + 30], 0);
    assert_eq!(memory[FREE_COUNT], 31);
}

const IDLE_TIMER: &str =
    "an empty queue has a timer above 0 only where the running group has force on";

/// Nothing in the hardware queue, and the timer as it was.
fn empty_queue(m: &mut [u32]) {
    m[QUEUE_COUNT] = 0;
    m[queue(0)..queue(3)].fill(0);
    m[record(1) + PENDING] = 0;
}

/// Group 3 has its messages in three pages, the last the last of the swap line; its number stands there
/// still.
fn unused_swap(m: &mut [u32]) {
    let taken = take_last_swap(m, 3);
    m[record(3) + MESSAGES] = 22;
    m[SWAP + 63] = taken as u32;
    [1, taken].into_iter().for_each(|page| fill(m, page));
}

/// A change to the words of the busy node that breaks a clause.
type Break = (&'static str, fn(&mut Vec<u32>));

const BREAKS: &[Break] = &[
    ("running is 0 to 8", |m| m[RUNNING] = 9),
    ("running is 0 to 8", |m| m[RUNNING] = u32::MAX),
    ("counts are within the bounds", |m| m[QUEUE_COUNT] = 17),
    ("counts are within the bounds", |m| m[FREE_COUNT] = 33),
    ("counts are within the bounds", |m| m[SWAP_COUNT] = 65),
    ("counts are within the bounds", |m| m[ENTRY_COUNT] = 33),
    ("counts are within the bounds", |m| {
        m[record(8) + LIST_COUNT] = 97
    }),
    ("counts are within the bounds", |m| {
        m[record(8) + DESCRIPTOR_COUNT] = 9
    }),
    ("counts are within the bounds", |m| {
        m[QUEUE_COUNT] = u32::MAX
    }),
    ("groups are within the bounds", |m| m[queue(1)] = 0),
    ("groups are within the bounds", |m| m[queue(2)] = 9),
    ("h is within the bounds", |m| {
        m[record(3) + USED_UP..][..2].copy_from_slice(&[8, 2]);
        m[page(0, 0)..page(1, 0)].fill(0);
    }),
    ("timer is within the bounds", |m| m[TIMER] = 256),
    ("each frame stands once", |m| m[FREE] = 3),
    ("each frame stands once", |m| m[FREE] = 32),
    ("each frame stands once", |m| {
        m[record(3) + LIST + 1] = 31;
        fill(m, 31);
    }),
    ("each frame stands once", |m| {
        m[record(3) + LIST] = 1;
        fill(m, 1);
    }),
    ("each frame stands once", |m| {
        m[FREE_COUNT] = 29;
        m[FREE + 29] = 0;
    }),
    ("each swap page stands once", |m| m[SWAP] = 33),
    ("each swap page stands once", |m| m[SWAP] = 31),
    ("each swap page stands once", |m| m[SWAP + 63] = 96),
    ("each swap page stands once", |m| m[SWAP_COUNT] = 63),
    ("each swap page stands once", |m| {
        take_last_swap(m, 3);
        m[record(3) + LIST + 2] = 96;
    }),
    ("each swap page stands once", |m| {
        take_last_swap(m, 3);
        m[record(3) + LIST + 2] = 32;
    }),
    ("the order of entry holds each frame in use once", |m| {
        m[ENTRY] = 1
    }),
    ("the order of entry holds each frame in use once", |m| {
        m[ENTRY + 1] = 2
    }),
    ("the order of entry holds each frame in use once", |m| {
        m[ENTRY + 1] = 33
    }),
    ("the order of entry holds each frame in use once", |m| {
        m[ENTRY_COUNT] = 1
    }),
    ("the order of entry holds each frame in use once", |m| {
        m[ENTRY_COUNT] = 3
    }),
    ("each list has its rounded-up length", |m| {
        take_last_free(m, 2);
    }),
    ("each list has its rounded-up length", |m| {
        take_last_swap(m, 3);
    }),
    ("each list has its rounded-up length", |m| {
        m[record(3) + MESSAGES] = 15;
        fill(m, 1);
    }),
    ("each list has its rounded-up length", |m| {
        m[record(3) + MESSAGES] = 6;
        m[page(1, 0)..page(2, 0)].fill(0);
    }),
    ("each list has its rounded-up length", |m| {
        m[record(3) + MESSAGES] = u32::MAX;
        fill(m, 1);
    }),
    ("waiting messages' lengths are within the bounds", |m| {
        m[queue(0) + 1] = 0
    }),
    ("waiting messages' lengths are within the bounds", |m| {
        m[queue(2) + 1] = 9
    }),
    ("waiting messages' lengths are within the bounds", |m| {
        m[page(0, 2)] = 0
    }),
    ("waiting messages' lengths are within the bounds", |m| {
        m[page(1, 1)] = 9
    }),
    ("flags are 0 or 1", |m| m[record(1) + ATOMIC] = 2),
    ("flags are 0 or 1", |m| m[record(8) + PENDING] = 2),
    ("flags are 0 or 1", |m| m[record(1) + FORCE] = 2),
    ("flags are 0 or 1", |m| m[record(3) + REVOKED] = 2),
    ("unused places of the queue are 0", |m| m[queue(3)] = 1),
    ("unused places of the queue are 0", |m| m[queue(3) + 1] = 1),
    ("unused places of the queue are 0", |m| m[queue(15) + 9] = 1),
    ("unused places of the free line are 0", |m| m[FREE + 30] = 1),
    ("unused places of the free line are 0", |m| m[FREE + 31] = 1),
    ("unused places of the swap line are 0", |m| unused_swap(m)),
    ("unused places of the order of entry are 0", |m| {
        m[ENTRY + 2] = 1
    }),
    ("unused places of the order of entry are 0", |m| {
        m[ENTRY + 31] = 1
    }),
    ("unused places of the lists are 0", |m| {
        m[record(3) + LIST + 2] = 1
    }),
    ("unused places of the lists are 0", |m| {
        m[record(8) + LIST + 95] = 1
    }),
    ("unused descriptor words are 0", |m| {
        m[record(1) + DESCRIPTOR + 2] = 1
    }),
    ("unused descriptor words are 0", |m| {
        m[record(8) + DESCRIPTOR + 7] = 1
    }),
    ("a waiting message's words past its length are 0", |m| {
        m[queue(0) + 3] = 1
    }),
    ("a waiting message's words past its length are 0", |m| {
        m[page(0, 2) + 3] = 1
    }),
    ("a waiting message's words past its length are 0", |m| {
        m[page(1, 1) + 8] = 1
    }),
    ("free frames are 0", |m| m[page(2, 0)] = 1),
    ("free frames are 0", |m| m[page(31, 7) + 8] = 1),
    ("free swap pages are 0", |m| m[page(32, 0)] = 1),
    ("free swap pages are 0", |m| m[page(95, 7) + 8] = 1),
    ("used-up places are 0", |m| m[page(0, 0)] = 1),
    ("used-up places are 0", |m| m[page(0, 1) + 8] = 1),
    ("places behind the last message are 0", |m| {
        m[page(1, 2)] = 1
    }),
    ("places behind the last message are 0", |m| {
        m[page(1, 7) + 8] = 1
    }),
    ("h is 0 where n is 0", |m| {
        take_last_free(m, 5);
        m[record(5) + USED_UP] = 1;
    }),
    ("pending only with atomic and a line not empty", |m| {
        m[record(3)..][..2].copy_from_slice(&[0, 1])
    }),
    ("pending only with atomic and a line not empty", |m| {
        m[record(5)..][..2].copy_from_slice(&[1, 1])
    }),
    ("pending only with atomic and a line not empty", |m| {
        m[record(1) + ATOMIC] = 0
    }),
    ("force stands only with atomic", |m| {
        m[record(5) + FORCE] = 1
    }),
    ("force stands only with atomic", |m| {
        m[record(1)..][..3].copy_from_slice(&[0, 0, 1])
    }),
    ("revoked stands only with atomic", |m| {
        m[record(5) + REVOKED] = 1
    }),
    ("revoked stands only with atomic", |m| {
        m[record(3)..][..4].copy_from_slice(&[0, 0, 0, 1])
    }),
    ("a running group with a line not empty is atomic", |m| {
        m[record(1)..][..2].copy_from_slice(&[0, 0])
    }),
    ("the queue's head is the running group's", |m| {
        m[RUNNING] = 0
    }),
    ("the queue's head is the running group's", |m| {
        m[RUNNING] = 4
    }),
    ("the group of the queue's head is direct", |m| {
        let taken = take_last_free(m, 1);
        m[record(1) + MESSAGES] = 1;
        m[page(taken, 0)] = 1;
    }),
    ("the group of the queue's head is direct", |m| {
        m[record(1) + REVOKED] = 1
    }),
    (IDLE_TIMER, |m| empty_queue(m)),
    (IDLE_TIMER, |m| {
        empty_queue(m);
        m[record(1) + REVOKED] = 1;
        m[record(3) + FORCE] = 1;
    }),
    (IDLE_TIMER, |m| {
        empty_queue(m);
        m[record(1) + FORCE] = 1;
        m[RUNNING] = 0;
    }),
    (IDLE_TIMER, |m| {
        empty_queue(m);
        m[record(1) + FORCE] = 1;
        m[RUNNING] = 3;
    }),
];

#[test]
fn each_clause_broken_is_answered_1_and_memory_untouched() {
    for (clause, change) in BREAKS {
        let mut memory = busy();
        change(&mut memory);
        expect_no_node(&memory, clause);
    }
}

/// The paper's sentence, with its "within the bounds above" and its "0" said of each part, and the
/// orders' clauses behind those that they are like.
const SENTENCE: &str = "running is 0 to 8; counts are within the bounds; groups are within the \
    bounds; waiting messages' lengths are within the bounds; h is within the bounds; timer is \
    within the bounds; each frame stands once; each swap page stands once; the order of entry \
    holds each frame in use once; each list has its rounded-up length; flags are 0 or 1; unused \
    places of the queue are 0; unused places of the free line are 0; unused places of the swap \
    line are 0; unused places of the order of entry are 0; unused places of the lists are 0; \
    unused descriptor words are 0; a waiting message's words past its length are 0; free frames \
    are 0; free swap pages are 0; used-up places are 0; places behind the last message are 0; \
    pledges sum to at most 96; h is 0 where n is 0; pending only with atomic and a line not empty; \
    force stands only with atomic; revoked stands only with atomic; a running group with a line \
    not empty is atomic; the queue's head is the running group's; the group of the queue's head is \
    direct; an empty queue has a timer above 0 only where the running group has force on; a \
    running group's first page is in a frame";

#[test]
fn clauses_stand_in_the_papers_order() {
    assert!(clauses().eq(SENTENCE.split("; ")));
}

/// Changes from the paper's last clause to its first, each told although all before it stand.
#[test]
fn of_broken_clauses_the_papers_first_is_told() {
    let later_and_later: [Break; 27] = [
        ("the group of the queue's head is direct", |m| {
            let taken = take_last_free(m, 1);
            m[record(1) + MESSAGES] = 1;
            m[page(taken, 0)] = 1;
        }),
        ("the queue's head is the running group's", |m| {
            m[RUNNING] = 3
        }),
        ("a running group with a line not empty is atomic", |m| {
            m[record(3) + ATOMIC] = 0
        }),
        ("revoked stands only with atomic", |m| {
            m[record(5) + REVOKED] = 1
        }),
        ("force stands only with atomic", |m| {
            m[record(6) + FORCE] = 1
        }),
        ("pending only with atomic and a line not empty", |m| {
            m[record(3) + PENDING] = 1
        }),
        ("h is 0 where n is 0", |m| {
            take_last_free(m, 5);
            m[record(5) + USED_UP] = 1;
        }),
        ("places behind the last message are 0", |m| {
            m[page(1, 2)] = 1
        }),
        ("used-up places are 0", |m| m[page(0, 0)] = 1),
        ("free swap pages are 0", |m| m[page(32, 0)] = 1),
        ("free frames are 0", |m| m[page(2, 0)] = 1),
        ("a waiting message's words past its length are 0", |m| {
            m[page(1, 1) + 8] = 1
        }),
        ("unused descriptor words are 0", |m| {
            m[record(1) + DESCRIPTOR + 2] = 1
        }),
        ("unused places of the lists are 0", |m| {
            m[record(8) + LIST + 95] = 1
        }),
        ("unused places of the order of entry are 0", |m| {
            m[ENTRY + 31] = 1
        }),
        ("unused places of the swap line are 0", |m| unused_swap(m)),
        ("unused places of the free line are 0", |m| m[FREE + 31] = 1),
        ("unused places of the queue are 0", |m| m[queue(3)] = 1),
        ("flags are 0 or 1", |m| m[record(8) + ATOMIC] = 2),
        ("each list has its rounded-up length", |m| {
            take_last_free(m, 2);
        }),
        ("the order of entry holds each frame in use once", |m| {
            m[ENTRY] = 5
        }),
        ("each swap page stands once", |m| m[SWAP] = 40),
        ("each frame stands once", |m| m[FREE] = 3),
        ("timer is within the bounds", |m| m[TIMER] = 256),
        ("h is within the bounds", |m| m[record(8) + USED_UP] = 8),
        ("waiting messages' lengths are within the bounds", |m| {
            m[page(1, 1)] = 9
        }),
        ("groups are within the bounds", |m| m[queue(1)] = 0),
    ];
    let mut memory = busy();
    for (clause, change) in later_and_later {
        change(&mut memory);
        assert_eq!(broken_clause(&memory), Some(clause));
    }
    memory[FREE_COUNT] = 33;
    assert_eq!(broken_clause(&memory), Some("counts are within the bounds"));
    memory[RUNNING] = 9;
    assert_eq!(broken_clause(&memory), Some("running is 0 to 8"));
}

/// The words that break a clause, as they are told.
#[test]
fn a_broken_clause_is_told_with_addresses_and_values() {
    let told = |change: fn(&mut Vec<u32>)| {
        let mut memory = busy();
        change(&mut memory);
        memory::read(&memory).expect_err("no node").to_string()
    };
    let cases: [Break; 24] = [
        ("running is 0 to 8\n  word 0, the running group: 9", |m| {
            m[RUNNING] = 9
        }),
        (
            "counts are within the bounds\n  word 987, words in the descriptor of group 8: 9",
            |m| m[record(8) + DESCRIPTOR_COUNT] = 9,
        ),
        (
            "groups are within the bounds\n  word 24, group at place 2 of the hardware queue: 9",
            |m| m[queue(2)] = 9,
        ),
        (
            "waiting messages' lengths are within the bounds\n  word 1173, length at place 1 of \
             frame 1: 9",
            |m| m[page(1, 1)] = 9,
        ),
        (
            "each frame stands once\n  word 436, place 0 of the list of group 3: 1\n  word 437, \
             place 1 of the list of group 3: 1",
            |m| {
                m[record(3) + LIST] = 1;
                fill(m, 1);
            },
        ),
        (
            "each frame stands once\n  word 164, place 0 of the free line: 32",
            |m| m[FREE] = 32,
        ),
        (
            "each frame stands once\n  word 3, frames in the free line: 29\n  word 202, pages in \
             the list of group 1: 0\n  word 314, pages in the list of group 2: 0\n  word 426, \
             pages in the list of group 3: 2\n  word 538, pages in the list of group 4: 0\n  \
             word 650, pages in the list of group 5: 0\n  word 762, pages in the list of group \
             6: 0\n  word 874, pages in the list of group 7: 0\n  word 986, pages in the list \
             of group 8: 0",
            |m| m[FREE_COUNT] = 29,
        ),
        (
            "each swap page stands once\n  word 8008, place 0 of the swap line: 31",
            |m| m[SWAP] = 31,
        ),
        (
            "each swap page stands once\n  word 8012, place 4 of the swap line: 36\n  word 438, \
             place 2 of the list of group 3: 36",
            |m| {
                take_last_swap(m, 3);
                m[record(3) + LIST + 2] = 36;
            },
        ),
        (
            "the order of entry holds each frame in use once\n  word 8073, place 1 of the order \
             of entry: 2",
            |m| m[ENTRY + 1] = 2,
        ),
        (
            "the order of entry holds each frame in use once\n  word 8005, frames in the order of \
             entry: 1",
            |m| m[ENTRY_COUNT] = 1,
        ),
        (
            "waiting messages' lengths are within the bounds\n  word 7932, length at place 0 of \
             swap page 63: 9",
            |m| {
                unused_swap(m);
                m[page(95, 0)] = 9;
            },
        ),
        (
            "each list has its rounded-up length\n  word 424, h of group 3: 2\n  word 425, n of \
             group 3: 15\n  word 426, pages in the list of group 3: 2",
            |m| {
                m[record(3) + MESSAGES] = 15;
                fill(m, 1);
            },
        ),
        (
            "unused descriptor words are 0\n  word 206, descriptor word 2 of group 1: 1",
            |m| m[record(1) + DESCRIPTOR + 2] = 1,
        ),
        (
            "pending only with atomic and a line not empty\n  word 420, atomic of group 3: 0\n  \
             word 421, pending of group 3: 1\n  word 425, n of group 3: 8",
            |m| m[record(3)..][..2].copy_from_slice(&[0, 1]),
        ),
        (
            "force stands only with atomic\n  word 644, atomic of group 5: 0\n  word 646, force of \
             group 5: 1",
            |m| m[record(5) + FORCE] = 1,
        ),
        (
            "the group of the queue's head is direct\n  word 4, group at place 0 of the hardware \
             queue: 1\n  word 199, revoked of group 1: 1",
            |m| m[record(1) + REVOKED] = 1,
        ),
        (
            "an empty queue has a timer above 0 only where the running group has force on\n  word 1, \
             the timer: 5\n  word 2, messages in the hardware queue: 0\n  word 0, the running \
             group: 1\n  word 198, force of group 1: 0",
            |m| empty_queue(m),
        ),
        (
            "the queue's head is the running group's\n  word 0, the running group: 4\n  word 4, \
             group at place 0 of the hardware queue: 1",
            |m| m[RUNNING] = 4,
        ),
        (
            "a waiting message's words past its length are 0\n  word 7, word 1 at place 0 of the \
             hardware queue: 1",
            |m| m[queue(0) + 3] = 1,
        ),
        (
            "free frames are 0\n  word 1236, length at place 0 of frame 2: 7",
            |m| m[page(2, 0)] = 7,
        ),
        (
            "free swap pages are 0\n  word 8003, word 7 at place 7 of swap page 63: 7",
            |m| m[page(95, 7) + 8] = 7,
        ),
        (
            "used-up places are 0\n  word 1101, length at place 1 of frame 0: 7",
            |m| m[page(0, 1)] = 7,
        ),
        (
            "places behind the last message are 0\n  word 1183, word 0 at place 2 of frame 1: 7",
            |m| m[page(1, 2) + 1] = 7,
        ),
    ];
    for (expected, change) in cases {
        assert_eq!(told(change), format!("this does not hold: {expected}"));
    }
}

const PLEDGES: &str = "pledges sum to at most 96";

#[test]
fn pledges_above_the_pages_are_answered_1() {
    let mut memory = memory_after(&format!("{}S,1 A,1,7", "A,2,7 ".repeat(760)));
    assert_eq!(broken_clause(&memory), None);
    let taken = take_last_swap(&mut memory, 2);
    memory[record(2) + MESSAGES] = 761;
    memory[page(taken, 0)] = 1;
    expect_no_node(&memory, PLEDGES);
}

const FIRST_PAGE: &str = "a running group's first page is in a frame";

#[test]
fn a_running_group_whose_first_page_is_out_is_answered_1() {
    let mut memory = memory_after(&format!("{}S,2", "A,2,7 ".repeat(264)));
    let list = record(2) + LIST;
    assert_eq!(memory[list..][..3], [1, 32, 2]);
    memory.swap(list, list + 1);
    expect_no_node(&memory, FIRST_PAGE);
    let told = memory::read(&memory).expect_err("no node").to_string();
    assert!(
        told.ends_with(
            "word 0, the running group: 2\n  word 324, place 0 of the list of group 2: 32"
        ),
        "{told}"
    );
    memory[RUNNING] = 0;
    assert_eq!(broken_clause(&memory), None);
}

/// The counts of pages may be anything.
#[test]
fn pages_sent_out_and_brought_in_are_told() {
    let mut memory = memory_after(&format!("{}S,2", "A,2,7 ".repeat(257)));
    assert_eq!(paging(&memory), [2, 1]);
    memory[SENT_OUT..=BROUGHT_IN].copy_from_slice(&[u32::MAX, 5]);
    assert_eq!(paging(&memory), [u32::MAX, 5]);
    assert_eq!(broken_clause(&memory), None);
    memory[TIMER] = 1;
    assert_eq!(paging(&memory), [0, 0]);
    assert_eq!(paging(&[]), [0, 0]);
}

/// Every operation is answered 1, an unknown one too, and the head is an empty part.
fn expect_no_node(memory: &[u32], clause: &str) {
    assert_eq!(broken_clause(memory), Some(clause));
    assert!(memory::read(memory).is_err(), "{clause}");
    assert!(head(memory).is_empty(), "{clause}");
    assert_eq!(paging(memory), [0, 0], "{clause}");
    for line in [
        "A,1,7", "O", "I,1", "S,2", "T,1", "M", "E,0", "D", "B", "B,1", "N", "P,1", "L,0", "?",
        "S,9",
    ] {
        let mut after = memory.to_vec();
        let report = step(&mut after, &script::read(line.as_bytes()));
        assert_eq!(
            report,
            Report::refused(Refusal::NotANode),
            "{clause}: {line}"
        );
        assert_eq!(after, memory, "{clause}: {line}");
    }
}

/// Two clauses are broken by nodes of their own.
#[test]
fn every_clause_has_its_break() {
    let broken: Vec<&str> = BREAKS.iter().map(|(clause, _)| *clause).collect();
    for clause in clauses().filter(|clause| ![PLEDGES, FIRST_PAGE].contains(clause)) {
        assert!(broken.contains(&clause), "{clause}");
    }
}

#[test]
fn power_on_makes_a_node_of_what_is_none() {
    for (_, change) in BREAKS {
        let mut memory = busy();
        change(&mut memory);
        assert_eq!(power_on(&mut memory), 0);
        assert_eq!(memory, support::power_on());
    }
}

#[test]
fn memory_too_short_is_answered_1_and_untouched() {
    for size in [0, 1, 2868, 8088, 8103] {
        let mut memory = busy()[..size].to_vec();
        assert_eq!(power_on(&mut memory), 1);
        expect_no_node(&memory, "memory too short");
        assert_eq!(memory, busy()[..size]);
    }
}

#[test]
fn memory_past_the_nodes_size_is_neither_looked_at_nor_touched() {
    let rest = [0xdead_beef, 1, 2, 3];
    let mut memory = [vec![7; 8104], rest.to_vec()].concat();
    assert_eq!(power_on(&mut memory), 0);
    let mut node = Node::power_on();
    for operation in random_runs(1, 60).flatten() {
        assert_eq!(step(&mut memory, &operation), node.step(&operation));
        assert_eq!(memory[8104..], rest);
    }
}

/// The clause that asks a place of a page to be 0; none where a message waits.
fn wiped_by(node: &Node, page: usize, place: usize) -> Option<&'static str> {
    for buffer in node.groups.iter().map(|group| &group.buffer) {
        let listed = buffer.pages.iter().position(|&listed| listed == page);
        let Some(place) = listed.map(|number| 8 * number + place) else {
            continue;
        };
        return if place < buffer.used_up {
            Some("used-up places are 0")
        } else if place < buffer.used_up + buffer.messages {
            None
        } else {
            Some("places behind the last message are 0")
        };
    }
    Some(match page {
        0..32 => "free frames are 0",
        _ => "free swap pages are 0",
    })
}

/// Every word, and every kept length: of a node with free frames, and of one with two pages out, the
/// first with its first place used up, the second with one message.
#[test]
fn a_word_where_no_message_waits_is_answered_1() {
    let out = memory_after("8*A,3,5 A,2,6 S,3 D S,0 249*A,1,7");
    assert_eq!(out[SWAP_COUNT..][..4], [62, 32, 2, 0]);
    for mut memory in [busy(), out] {
        let node = memory::read(&memory).expect("a node");
        for place in 0..768 {
            let Some(clause) = wiped_by(&node, place / 8, place % 8) else {
                continue;
            };
            let at = page(place / 8, place % 8);
            for at in at..at + 9 {
                memory[at] = 1;
                assert_eq!(broken_clause(&memory), Some(clause), "word {at}");
                memory[at] = 0;
            }
        }
        assert_eq!(memory::read(&memory), Ok(node));
    }
}

#[test]
fn flags_of_groups_that_do_not_run_are_free_where_the_rules_leave_them() {
    let mut memory = busy();
    memory[record(3) + PENDING] = 1;
    memory[record(5) + ATOMIC] = 1;
    // Group 2 has a message in the queue only: that is a line not empty.
    memory[record(2)..][..2].copy_from_slice(&[1, 1]);
    assert_eq!(broken_clause(&memory), None);
    // Force and revoked ask for atomic and nothing else.
    for group in [2, 3, 5] {
        memory[record(group) + FORCE..][..2].copy_from_slice(&[1, 1]);
    }
    assert_eq!(broken_clause(&memory), None);
    memory[record(1) + FORCE] = 1;
    assert_eq!(broken_clause(&memory), None);
}

#[test]
fn a_timer_with_an_empty_queue_is_the_forced_runners() {
    let mut memory = busy();
    empty_queue(&mut memory);
    assert_eq!(broken_clause(&memory), Some(IDLE_TIMER));
    memory[record(1) + FORCE] = 1;
    assert_eq!(broken_clause(&memory), None);
    memory[record(1) + REVOKED] = 1;
    assert_eq!(broken_clause(&memory), None);
    memory[TIMER] = 255;
    assert_eq!(broken_clause(&memory), None);
    let report = step(&mut memory, &script::read(b"T,1"));
    assert_eq!((report.trap, report.moved), (Trap::Timeout, 0));
    memory[record(1) + FORCE] = 0;
    assert_eq!(broken_clause(&memory), None);
}

#[test]
fn an_older_copy_passes() {
    let older = busy();
    let mut memory = older.clone();
    assert!(step(&mut memory, &Operation::Dispose).accepted());
    assert_ne!(memory, older);
    assert_eq!(broken_clause(&older), None);
}

#[test]
fn steps_on_memory_agree_with_the_records() {
    for run in random_runs(3, 1000) {
        let mut memory = support::power_on();
        let mut node = Node::power_on();
        for operation in run {
            let before = memory.clone();
            let report = step(&mut memory, &operation);
            assert_eq!(report, node.step(&operation));
            assert_eq!(broken_clause(&memory), None, "after {operation:?}");
            assert_eq!(memory::read(&memory).as_ref(), Ok(&node));
            if !report.accepted() {
                assert_eq!(memory, before, "refused {operation:?}");
            }
            let first = node.line(node.running).next().unwrap_or(&[]);
            assert_eq!(head(&memory), first);
        }
    }
}

#[test]
fn a_refused_step_leaves_memory_as_it_was() {
    let mut memory = busy();
    let refused = [
        ("?", 2),
        ("A,0,1", 3),
        ("A,1", 4),
        ("E,1", 9),
        ("N", 10),
        ("L,64", 13),
        ("S,9", 14),
        ("I,0", 14),
        ("T,0", 15),
        ("I,2", 16),
    ];
    for (line, answer) in refused {
        let report = step(&mut memory, &script::read(line.as_bytes()));
        assert_eq!(report.answer, answer, "{line}");
        assert_eq!(memory, busy(), "{line}");
    }
}

#[test]
fn head_is_a_part_of_the_memory() {
    let queued = busy();
    assert_eq!(head(&queued), [7]);
    assert_eq!(head(&queued).as_ptr(), queued[queue(0) + 2..].as_ptr());
    assert_eq!(head_part(&queued), queue(0) + 2..queue(0) + 3);

    let buffered = memory_after("A,2,1 A,3,10,11 A,3,20,21,22 S,3 D");
    assert_eq!(head(&buffered), [20, 21, 22]);
    assert_eq!(
        head(&buffered).as_ptr(),
        buffered[page(1, 1) + 1..].as_ptr()
    );
    assert_eq!(head_part(&buffered), page(1, 1) + 1..page(1, 1) + 4);
}

#[test]
fn head_is_empty_without_a_message() {
    assert!(head(&support::power_on()).is_empty());
    assert!(head(&memory_after("A,1,7")).is_empty());
    assert!(head(&memory_after("A,1,7 S,2")).is_empty());
    assert!(head(&[]).is_empty());
    assert_eq!(head_part(&[]), 0..0);
    assert_eq!(head_part(&memory_after("A,1,7 S,2")), 0..0);
}

#[test]
fn head_crosses_to_the_second_page() {
    let script: String = (0..12).map(|word| format!("A,1,{word} ")).collect();
    let memory = memory_after(&format!("{script}S,1 {}", "D ".repeat(9)));
    assert_eq!(head(&memory), [9]);
    assert_eq!(head(&memory).as_ptr(), memory[page(1, 1) + 1..].as_ptr());
}
