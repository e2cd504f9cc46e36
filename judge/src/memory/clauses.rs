//! The paper's memory test, clause by clause.

use std::fmt::{self, Display, Formatter};
use std::ops::RangeInclusive;

use super::map::{
    group_at, what_stands_at, Words, ATOMIC, DESCRIPTOR_COUNT, ENTRY_COUNT, FORCE, FREE_COUNT,
    LIST_AT, LIST_COUNT, MESSAGES, PENDING, QUEUE_COUNT, REVOKED, RUNNING, SIZE, SWAP_COUNT, TIMER,
    USED_UP,
};
use crate::node::{
    pages_for, DESCRIPTOR_WORDS, FRAMES, GROUPS, MESSAGE_WORDS, PAGES, PAGE_PLACES, QUEUE_PLACES,
    SWAP_PAGES, TIMEOUT,
};

/// A clause in the paper's words, and how it is asked: the addresses of the words that break it,
/// none if it holds.
type Clause = (&'static str, fn(&Words) -> Vec<usize>);

/// "Memory is a node when": the sentence clause by clause, in its order, and the orders' clauses each
/// behind the one that it is like, the first page's last. Lengths come before the clauses that see to
/// it that all waiting messages are found; a message that is not found breaks one of these. What "is
/// no part of a waiting message" is asked about by where it can stand: once the lists are in order, a
/// place without one is of a free page, or before or behind the messages of a buffer.
const CLAUSES: [Clause; 32] = [
    ("running is 0 to 8", running_in_bounds),
    ("counts are within the bounds", counts_in_bounds),
    ("groups are within the bounds", groups_in_bounds),
    (
        "waiting messages' lengths are within the bounds",
        lengths_in_bounds,
    ),
    ("h is within the bounds", used_up_in_bounds),
    ("timer is within the bounds", timer_in_bounds),
    ("each frame stands once", frames_stand_once),
    ("each swap page stands once", swap_pages_stand_once),
    (
        "the order of entry holds each frame in use once",
        entry_holds_frames_in_use,
    ),
    ("each list has its rounded-up length", lists_rounded_up),
    ("flags are 0 or 1", flags_are_bits),
    ("unused places of the queue are 0", queue_rest_zero),
    ("unused places of the free line are 0", free_rest_zero),
    ("unused places of the swap line are 0", swap_rest_zero),
    ("unused places of the order of entry are 0", entry_rest_zero),
    ("unused places of the lists are 0", list_rest_zero),
    ("unused descriptor words are 0", descriptor_rest_zero),
    (
        "a waiting message's words past its length are 0",
        message_rest_zero,
    ),
    ("free frames are 0", free_frames_zero),
    ("free swap pages are 0", free_swap_pages_zero),
    ("used-up places are 0", used_up_zero),
    ("places behind the last message are 0", unwritten_zero),
    ("pledges sum to at most 96", pledges_fit),
    ("h is 0 where n is 0", empty_buffer_unused),
    (
        "pending only with atomic and a line not empty",
        pending_has_cause,
    ),
    ("force stands only with atomic", force_in_section),
    ("revoked stands only with atomic", revoked_in_section),
    (
        "a running group with a line not empty is atomic",
        runner_atomic,
    ),
    ("the queue's head is the running group's", head_is_runners),
    ("the group of the queue's head is direct", head_is_direct),
    (
        "an empty queue has a timer above 0 only where the running group has force on",
        idle_timer_forced,
    ),
    (
        "a running group's first page is in a frame",
        first_page_in_frame,
    ),
];

/// The clauses, in the paper's order.
pub fn clauses() -> impl Iterator<Item = &'static str> {
    CLAUSES.iter().map(|(clause, _)| *clause)
}

/// Why a memory is no node.
#[derive(Clone, Debug, PartialEq, Eq)]
pub enum Fault {
    /// "memory too short": it has so many words.
    TooShort(usize),
    /// The first clause that does not hold, and the words that break it: address and value.
    Broken(&'static str, Vec<(usize, u32)>),
}

impl Fault {
    /// In the paper's words.
    pub fn clause(&self) -> &'static str {
        match self {
            Fault::TooShort(_) => "memory too short",
            Fault::Broken(clause, _) => clause,
        }
    }
}

impl Display for Fault {
    fn fmt(&self, f: &mut Formatter) -> fmt::Result {
        match self {
            Fault::TooShort(words) => {
                write!(f, "{}: {words} words, a node has {SIZE}", self.clause())
            }
            Fault::Broken(clause, words) => {
                write!(f, "this does not hold: {clause}")?;
                words.iter().try_for_each(|&(at, value)| {
                    write!(f, "\n  word {at}, {}: {value}", what_stands_at(at))
                })
            }
        }
    }
}

/// The words of a node, or why the memory is none.
pub fn test(memory: &[u32]) -> Result<Words<'_>, Fault> {
    let words = memory.get(..SIZE).map(Words);
    let words = words.ok_or(Fault::TooShort(memory.len()))?;
    for (clause, breaking) in CLAUSES {
        let at = breaking(&words);
        if !at.is_empty() {
            let standing = at.into_iter().map(|at| (at, words.0[at]));
            return Err(Fault::Broken(clause, standing.collect()));
        }
    }
    Ok(words)
}

/// Why the memory is no node; none where it is one.
pub fn fault(memory: &[u32]) -> Option<Fault> {
    test(memory).err()
}

/// The clause by which the memory is no node, in the paper's words.
pub fn broken_clause(memory: &[u32]) -> Option<&'static str> {
    fault(memory).map(|fault| fault.clause())
}

fn running_in_bounds(words: &Words) -> Vec<usize> {
    outside(words, 0..=GROUPS, [RUNNING])
}

fn counts_in_bounds(words: &Words) -> Vec<usize> {
    let lines = [
        (QUEUE_COUNT, QUEUE_PLACES),
        (FREE_COUNT, FRAMES),
        (SWAP_COUNT, SWAP_PAGES),
        (ENTRY_COUNT, FRAMES),
    ];
    let records = records().flat_map(|at| {
        [
            (at + LIST_COUNT, PAGES),
            (at + DESCRIPTOR_COUNT, DESCRIPTOR_WORDS),
        ]
    });
    let mut counts = lines.into_iter().chain(records);
    let broken = counts.find(|&(at, most)| words.0[at] as usize > most);
    broken.map(|(at, _)| at).into_iter().collect()
}

fn groups_in_bounds(words: &Words) -> Vec<usize> {
    outside(words, 1..=GROUPS, words.queued())
}

fn lengths_in_bounds(words: &Words) -> Vec<usize> {
    outside(words, 1..=MESSAGE_WORDS, words.waiting())
}

fn used_up_in_bounds(words: &Words) -> Vec<usize> {
    outside(words, 0..=PAGE_PLACES - 1, records().map(|at| at + USED_UP))
}

fn timer_in_bounds(words: &Words) -> Vec<usize> {
    outside(words, 0..=TIMEOUT as usize - 1, [TIMER])
}

/// "each frame stands once, in the free line or in one list"
fn frames_stand_once(words: &Words) -> Vec<usize> {
    let standing = words.free_line().chain(listed_frames(words));
    once_each(words, 0..FRAMES, standing, with_lists(FREE_COUNT))
}

/// Swap pages "meet what 01 asks of frames". A number of a list that is no page's is found here.
fn swap_pages_stand_once(words: &Words) -> Vec<usize> {
    let listed = words.listed().filter(|&at| words.0[at] as usize >= FRAMES);
    let standing = words.swap_line().chain(listed);
    once_each(words, FRAMES..PAGES, standing, with_lists(SWAP_COUNT))
}

/// "this order holds each frame in use once"
fn entry_holds_frames_in_use(words: &Words) -> Vec<usize> {
    let in_use = listed_frames(words).map(|at| words.0[at] as usize);
    once_each(words, in_use, words.entry_order(), [ENTRY_COUNT])
}

/// Where the frames of the lists stand.
fn listed_frames<'a>(words: &Words<'a>) -> impl Iterator<Item = usize> + 'a {
    let words = *words;
    words
        .listed()
        .filter(move |&at| (words.0[at] as usize) < FRAMES)
}

/// Where a line's count and those of the lists stand.
fn with_lists(count: usize) -> impl Iterator<Item = usize> {
    std::iter::once(count).chain(records().map(|at| at + LIST_COUNT))
}

/// Whether each of these pages stands once at the addresses, and no other number does. Broken by a
/// number that is none of them, by two that are the same, or by counts that leave one out.
fn once_each(
    words: &Words,
    pages: impl IntoIterator<Item = usize>,
    at: impl Iterator<Item = usize>,
    counts: impl IntoIterator<Item = usize>,
) -> Vec<usize> {
    let mut missing = [false; PAGES];
    pages.into_iter().for_each(|page| missing[page] = true);
    let mut stands = [None; PAGES];
    for at in at {
        let page = words.0[at] as usize;
        if let Some(before) = stands.get(page).copied().flatten() {
            return vec![before, at];
        }
        if !missing.get(page).is_some_and(|missing| *missing) {
            return vec![at];
        }
        missing[page] = false;
        stands[page] = Some(at);
    }
    if missing.contains(&true) {
        return counts.into_iter().collect();
    }
    Vec::new()
}

fn lists_rounded_up(words: &Words) -> Vec<usize> {
    first_group(|group| {
        let record = words.group(group);
        let pages = pages_for(record.end());
        let broken = pages != record.list_count() as u64;
        broken.then_some([USED_UP, MESSAGES, LIST_COUNT])
    })
}

fn flags_are_bits(words: &Words) -> Vec<usize> {
    let flags = records().flat_map(|at| [ATOMIC, PENDING, FORCE, REVOKED].map(|flag| at + flag));
    outside(words, 0..=1, flags)
}

fn queue_rest_zero(words: &Words) -> Vec<usize> {
    outside(words, 0..=0, words.queue_rest())
}

fn free_rest_zero(words: &Words) -> Vec<usize> {
    outside(words, 0..=0, words.free_rest())
}

fn swap_rest_zero(words: &Words) -> Vec<usize> {
    outside(words, 0..=0, words.swap_rest())
}

fn entry_rest_zero(words: &Words) -> Vec<usize> {
    outside(words, 0..=0, words.entry_rest())
}

fn list_rest_zero(words: &Words) -> Vec<usize> {
    outside(words, 0..=0, words.list_rest())
}

fn descriptor_rest_zero(words: &Words) -> Vec<usize> {
    outside(words, 0..=0, words.descriptor_rest())
}

fn message_rest_zero(words: &Words) -> Vec<usize> {
    outside(words, 0..=0, words.message_rest())
}

fn free_frames_zero(words: &Words) -> Vec<usize> {
    outside(words, 0..=0, words.free_frames())
}

fn free_swap_pages_zero(words: &Words) -> Vec<usize> {
    outside(words, 0..=0, words.free_swap_pages())
}

fn used_up_zero(words: &Words) -> Vec<usize> {
    outside(words, 0..=0, words.used_up_places())
}

fn unwritten_zero(words: &Words) -> Vec<usize> {
    outside(words, 0..=0, words.unwritten_places())
}

/// Broken by all that is counted in a pledge.
fn pledges_fit(words: &Words) -> Vec<usize> {
    let sum: u64 = (1..=GROUPS).map(|group| words.pledge(group)).sum();
    if sum <= PAGES as u64 {
        return Vec::new();
    }
    let buffers = records().flat_map(|at| [at + USED_UP, at + MESSAGES]);
    buffers.chain(words.queued()).collect()
}

fn empty_buffer_unused(words: &Words) -> Vec<usize> {
    first_group(|group| {
        let record = words.group(group);
        let broken = record.messages() == 0 && record.used_up() > 0;
        broken.then_some([USED_UP, MESSAGES])
    })
}

fn pending_has_cause(words: &Words) -> Vec<usize> {
    first_group(|group| {
        let record = words.group(group);
        let has_cause = record.atomic() == 1 && !words.line_is_empty(group);
        let broken = record.pending() == 1 && !has_cause;
        broken.then_some([ATOMIC, PENDING, MESSAGES])
    })
}

fn force_in_section(words: &Words) -> Vec<usize> {
    first_group(|group| {
        let record = words.group(group);
        let broken = record.force() == 1 && record.atomic() == 0;
        broken.then_some([ATOMIC, FORCE])
    })
}

fn revoked_in_section(words: &Words) -> Vec<usize> {
    first_group(|group| {
        let record = words.group(group);
        let broken = record.revoked() == 1 && record.atomic() == 0;
        broken.then_some([ATOMIC, REVOKED])
    })
}

fn runner_atomic(words: &Words) -> Vec<usize> {
    let running = words.running();
    if running == 0 || words.line_is_empty(running) || words.group(running).atomic() == 1 {
        return Vec::new();
    }
    vec![RUNNING, group_at(running) + ATOMIC]
}

fn head_is_runners(words: &Words) -> Vec<usize> {
    match words.queued().next() {
        Some(head) if words.0[head] as usize != words.running() => vec![RUNNING, head],
        _ => Vec::new(),
    }
}

/// Direct is a group with no message in its buffer that is not revoked.
fn head_is_direct(words: &Words) -> Vec<usize> {
    let Some(head) = words.queued().next() else {
        return Vec::new();
    };
    let record = group_at(words.0[head] as usize);
    let causes = [MESSAGES, REVOKED].map(|cause| record + cause);
    let broken = causes.into_iter().find(|&cause| words.0[cause] > 0);
    broken.map_or(Vec::new(), |cause| vec![head, cause])
}

fn idle_timer_forced(words: &Words) -> Vec<usize> {
    let running = words.running();
    let force = (running > 0).then(|| group_at(running) + FORCE);
    if words.queue_count() > 0 || words.timer() == 0 || force.is_some_and(|at| words.0[at] == 1) {
        return Vec::new();
    }
    [TIMER, QUEUE_COUNT, RUNNING]
        .into_iter()
        .chain(force)
        .collect()
}

fn first_page_in_frame(words: &Words) -> Vec<usize> {
    let running = words.running();
    let first = (running > 0).then(|| words.group(running).list().first());
    match first.flatten() {
        Some(&page) if page as usize >= FRAMES => vec![RUNNING, group_at(running) + LIST_AT],
        _ => Vec::new(),
    }
}

/// Where the groups' records begin.
fn records() -> impl Iterator<Item = usize> {
    (1..=GROUPS).map(group_at)
}

/// The first of the addresses whose word is out of the bounds.
fn outside(
    words: &Words,
    bounds: RangeInclusive<usize>,
    at: impl IntoIterator<Item = usize>,
) -> Vec<usize> {
    let mut at = at.into_iter();
    let broken = at.find(|&at| !bounds.contains(&(words.0[at] as usize)));
    broken.into_iter().collect()
}

/// The words of the first group's record that are at odds.
fn first_group<const N: usize>(at_odds: impl Fn(usize) -> Option<[usize; N]>) -> Vec<usize> {
    let mut records = (1..=GROUPS).filter_map(|group| {
        let offsets = at_odds(group)?;
        Some(offsets.map(|offset| group_at(group) + offset))
    });
    records.next().map_or(Vec::new(), |at| at.to_vec())
}
