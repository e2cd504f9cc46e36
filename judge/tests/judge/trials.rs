//! Random memories: fixed by their seed, and leading where they are meant to.

use std::collections::{BTreeMap, HashSet};

use judge::memory::trials::{change_words, operation, reachable, vary, Change, Length, CHANGES};
use judge::memory::{self, broken_clause, clauses, head, step, Fault};
use judge::node::{Node, Operation, Refusal, Report};
use judge::random::Random;

const SIZE: usize = 8104;

#[test]
fn a_seed_fixes_memories_and_operations() {
    let drawn = |seed| {
        let mut drawn = Vec::new();
        for_any_memory(seed, 40, |memory, operation| {
            drawn.push((memory, operation))
        });
        drawn
    };
    assert_eq!(drawn(1), drawn(1));
    assert_ne!(drawn(1), drawn(2));
}

/// Any memory with an operation, so many times. Scripts take longer than all else, so ten memories are
/// made of one node.
fn for_any_memory(seed: u64, count: usize, mut each: impl FnMut(Vec<u32>, Operation)) {
    let mut random = Random::new(seed);
    let mut node = Vec::new();
    for number in 0..count {
        if number % 10 == 0 {
            node = reachable(&mut random);
        }
        let mut memory = node.clone();
        vary(&mut memory, &mut random);
        each(memory, operation(&mut random));
    }
}

type Kind = (&'static str, fn(&Node) -> bool);

/// The last pages of buffers that have places behind the last message.
fn lasts_with_room(node: &Node) -> impl Iterator<Item = usize> + '_ {
    let buffers = node.groups.iter().map(|group| &group.buffer);
    buffers
        .filter(|buffer| (buffer.used_up + buffer.messages) % 8 > 0)
        .filter_map(|buffer| buffer.pages.back().copied())
}

/// The first pages of buffers that have used-up places.
fn firsts_used_up(node: &Node) -> impl Iterator<Item = usize> + '_ {
    let buffers = node.groups.iter().map(|group| &group.buffer);
    buffers
        .filter(|buffer| buffer.used_up > 0)
        .filter_map(|buffer| buffer.pages.front().copied())
}

/// Nodes, and among them those that are hard to reach.
#[test]
fn reachable_memories_are_nodes_of_every_kind() {
    let kinds: [Kind; 17] = [
        ("power-on", |node| *node == Node::power_on()),
        ("no frame free", |node| node.free.is_empty()),
        ("no page free", |node| {
            node.free.is_empty() && node.swap_free.is_empty()
        }),
        ("pages in swap, and frames free", |node| {
            node.swap_free.len() < 64 && !node.free.is_empty()
        }),
        ("the runner's first page the oldest", |node| {
            let runner = node.running.checked_sub(1).map(|at| &node.groups[at]);
            let first = runner.and_then(|group| group.buffer.pages.front());
            node.free.is_empty() && first.is_some_and(|first| node.entry.front() == Some(first))
        }),
        ("swap pages in use, and free ones", |node| {
            (1..64).contains(&node.swap_free.len())
        }),
        ("a last page in a frame, with room", |node| {
            lasts_with_room(node).any(|last| last < 32)
        }),
        ("a last page in swap, with room", |node| {
            lasts_with_room(node).any(|last| last >= 32)
        }),
        ("a full queue", |node| node.queue.len() == 16),
        ("a timer that counts", |node| node.timer > 0),
        ("a timer that counts with an empty queue", |node| {
            node.timer > 0 && node.queue.is_empty()
        }),
        ("force while another runs", |node| {
            let mut groups = node.groups.iter().zip(1..);
            groups.any(|(group, number)| group.force && number != node.running)
        }),
        ("a revoked runner with nothing in its buffer", |node| {
            let runner = node.running.checked_sub(1).map(|at| &node.groups[at]);
            runner.is_some_and(|group| group.revoked && group.buffer.messages == 0)
        }),
        ("a queued message behind a revoked group's", |node| {
            let mut queued = node.queue.iter();
            queued.any(|message| node.groups[message.group - 1].revoked)
        }),
        ("used-up places in a frame", |node| {
            firsts_used_up(node).any(|first| first < 32)
        }),
        ("used-up places in swap", |node| {
            firsts_used_up(node).any(|first| first >= 32)
        }),
        ("a full descriptor", |node| {
            node.groups.iter().any(|group| group.descriptor.len() == 8)
        }),
    ];
    let mut met = [0; 17];
    let mut random = Random::new(1);
    for _ in 0..2000 {
        let node = memory::read(&reachable(&mut random)).expect("a node");
        for (met, (_, is_one)) in met.iter_mut().zip(kinds) {
            *met += usize::from(is_one(&node));
        }
    }
    for (met, (kind, _)) in met.into_iter().zip(kinds) {
        assert!(met >= 10, "{kind}: {met}");
    }
}

#[test]
fn operations_are_of_every_kind() {
    let mut random = Random::new(1);
    let kinds = (0..500).map(|_| std::mem::discriminant(&operation(&mut random)));
    assert_eq!(kinds.collect::<HashSet<_>>().len(), 14);
}

#[test]
fn one_to_eight_words_are_changed() {
    let mut random = Random::new(1);
    let mut counts = [0; 9];
    for _ in 0..500 {
        let before = reachable(&mut random);
        let mut after = before.clone();
        change_words(&mut after, &mut random);
        counts[(0..SIZE).filter(|&at| before[at] != after[at]).count()] += 1;
    }
    assert_eq!(counts[0], 0);
    assert!(counts[1..].iter().all(|&count| count > 20), "{counts:?}");
}

/// Nodes to make changes to.
fn many_nodes() -> Vec<Vec<u32>> {
    let mut random = Random::new(1);
    (0..600).map(|_| reachable(&mut random)).collect()
}

/// What a change makes of nodes: nodes, and memories that are told by a clause.
fn made_by(change: &Change, nodes: &[Vec<u32>]) -> BTreeMap<&'static str, usize> {
    let mut random = Random::new(1);
    let mut made = BTreeMap::new();
    for node in nodes {
        let mut memory = node.clone();
        change.make(&mut memory, &mut random);
        let told = broken_clause(&memory).unwrap_or("a node");
        *made.entry(told).or_default() += 1;
    }
    made
}

/// What each change makes of nodes, beside other things.
const PURPOSES: [(&str, &str); 29] = [
    (
        "the running group",
        "a node; running is 0 to 8; the queue's head is the running group's; a running group's \
         first page is in a frame",
    ),
    (
        "the timer",
        "a node; timer is within the bounds; an empty queue has a timer above 0 only where the \
         running group has force on",
    ),
    (
        "counts",
        "a node; counts are within the bounds; each frame stands once; each swap page stands once; \
         the order of entry holds each frame in use once",
    ),
    (
        "used-up places",
        "a node; waiting messages' lengths are within the bounds; h is within the bounds; each list \
         has its rounded-up length; used-up places are 0",
    ),
    (
        "messages in a buffer",
        "a node; waiting messages' lengths are within the bounds; each list has its rounded-up \
         length; places behind the last message are 0",
    ),
    ("used-up places and no message", "h is 0 where n is 0"),
    (
        "flags",
        "a node; flags are 0 or 1; pending only with atomic and a line not empty; force stands only \
         with atomic; revoked stands only with atomic; a running group with a line not empty is \
         atomic",
    ),
    (
        "the flags of a section",
        "a node; force stands only with atomic; revoked stands only with atomic; the group of the \
         queue's head is direct; an empty queue has a timer above 0 only where the running group \
         has force on",
    ),
    (
        "a forced timer",
        "a node; an empty queue has a timer above 0 only where the running group has force on",
    ),
    (
        "groups",
        "a node; groups are within the bounds; the queue's head is the running group's",
    ),
    (
        "lengths",
        "a node; waiting messages' lengths are within the bounds; a waiting message's words past \
         its length are 0",
    ),
    (
        "the free line",
        "each frame stands once; unused places of the free line are 0",
    ),
    (
        "the swap line",
        "each swap page stands once; unused places of the swap line are 0",
    ),
    (
        "the order of entry",
        "the order of entry holds each frame in use once; unused places of the order of entry are \
         0",
    ),
    ("frames that entered in another order", "a node"),
    ("pages sent out and brought in", "a node"),
    (
        "lists",
        "each frame stands once; each swap page stands once; unused places of the lists are 0",
    ),
    (
        "pages exchanged",
        "a node; waiting messages' lengths are within the bounds; each frame stands once; the order \
         of entry holds each frame in use once",
    ),
    (
        "a first page sent out",
        "a node; a running group's first page is in a frame",
    ),
    (
        "unused words",
        "unused places of the queue are 0; unused places of the free line are 0; unused places of \
         the swap line are 0; unused places of the order of entry are 0; unused places of the lists \
         are 0; unused descriptor words are 0; a waiting message's words past its length are 0",
    ),
    ("a stray word in a free frame", "a node; free frames are 0"),
    (
        "a stray word in a free swap page",
        "a node; free swap pages are 0",
    ),
    (
        "a stray word in a used-up place",
        "a node; used-up places are 0",
    ),
    (
        "a stray word behind the last message",
        "a node; places behind the last message are 0",
    ),
    (
        "a message in the queue",
        "a node; the queue's head is the running group's; the group of the queue's head is direct",
    ),
    (
        "a message in a buffer",
        "a node; a running group with a line not empty is atomic; the group of the queue's head is \
         direct",
    ),
    ("all frames filled", "a node"),
    ("all pages filled", "a node; pledges sum to at most 96"),
    (
        "a queued message of each group that needs a page",
        "a node; pledges sum to at most 96",
    ),
];

#[test]
fn each_change_makes_what_it_is_for() {
    let names = CHANGES.iter().map(|change| change.name);
    assert!(names.eq(PURPOSES.map(|(name, _)| name)));
    let nodes = many_nodes();
    for (change, (name, purpose)) in CHANGES.iter().zip(PURPOSES) {
        let made = made_by(change, &nodes);
        for what in purpose.split("; ") {
            assert!(made.contains_key(what), "{name}: {what}: {made:?}");
        }
    }
}

fn change_named(name: &str) -> &'static Change {
    let change = CHANGES.iter().find(|change| change.name == name);
    change.expect("a change of this name")
}

/// What no clause asks about.
#[test]
fn the_counts_of_pages_may_be_anything() {
    let made = made_by(change_named("pages sent out and brought in"), &many_nodes());
    assert!(made.into_keys().eq(["a node"]));
}

/// Where no message waits, and nowhere else: a kept length and each of the eight words.
#[test]
fn stray_words_stand_where_they_are_named() {
    let nodes = many_nodes();
    for (name, clause) in [
        ("a stray word in a free frame", "free frames are 0"),
        ("a stray word in a free swap page", "free swap pages are 0"),
        ("a stray word in a used-up place", "used-up places are 0"),
        (
            "a stray word behind the last message",
            "places behind the last message are 0",
        ),
    ] {
        let mut random = Random::new(1);
        let mut words = [0; 9];
        for node in &nodes {
            let mut memory = node.clone();
            change_named(name).make(&mut memory, &mut random);
            match memory::read(&memory) {
                Ok(_) => assert_eq!(memory, *node, "{name}: there is no such place"),
                Err(Fault::Broken(broken, at)) => {
                    assert_eq!(broken, clause);
                    words[(at[0].0 - 1092) % 9] += 1;
                }
                Err(fault) => panic!("{name}: {fault}"),
            }
        }
        assert!(words[0] > 50, "{name}: {words:?}");
        assert!(words[1..].iter().all(|&count| count > 5), "{words:?}");
    }
}

#[test]
fn lengths_are_too_short_exact_and_longer() {
    let mut random = Random::new(1);
    for _ in 0..200 {
        let node = reachable(&mut random);
        let mut lengthened = |length: Length| {
            let mut memory = node.clone();
            length.give(&mut memory, &mut random);
            memory
        };
        let short = lengthened(Length::TooShort);
        assert!(short.len() < SIZE);
        assert_eq!(broken_clause(&short), Some("memory too short"));
        assert_eq!(lengthened(Length::Exact), node);
        let longer = lengthened(Length::Longer);
        assert!(longer.len() > SIZE);
        assert_eq!(longer[..SIZE], node);
        assert_eq!(memory::read(&longer), memory::read(&node));
    }
}

/// Nodes and memories that are none for every reason; a step on each is refused with 1 and leaves
/// it as it was, or is that of the node, and leaves a node with the words past it as they were.
#[test]
fn any_memory_is_met_and_stepped() {
    let mut told = BTreeMap::new();
    for_any_memory(1, 10_000, |before, operation| {
        expect_step(&before, &operation);
        *told.entry(broken_clause(&before)).or_insert(0) += 1;
    });
    for clause in clauses().chain(["memory too short"]).map(Some) {
        assert!(told.contains_key(&clause), "{clause:?}: {told:?}");
    }
    assert!((3_000..7_000).contains(&told[&None]), "{told:?}");
}

fn expect_step(before: &[u32], operation: &Operation) {
    let mut after = before.to_vec();
    let report = step(&mut after, operation);
    let Ok(mut node) = memory::read(before) else {
        assert_eq!(report, Report::refused(Refusal::NotANode));
        assert_eq!(after, before);
        assert!(head(before).is_empty());
        return;
    };
    assert_eq!(report, node.step(operation));
    assert_eq!(memory::read(&after), Ok(node));
    assert_eq!(after[SIZE..], before[SIZE..]);
}
