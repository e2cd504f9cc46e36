//! Random memories to try the calls over memory on: nodes that scripts reach, the same with words
//! changed, and memories of any length. Whether a changed one is still a node is for the memory
//! test to say.

use std::ops::Range;

use super::map::{
    group_at, place_at, queued_at, Words, ATOMIC, BROUGHT_IN, DESCRIPTOR_COUNT, ENTRY_AT,
    ENTRY_COUNT, FORCE, FREE_AT, FREE_COUNT, LIST_AT, LIST_COUNT, MESSAGES, PAGES_AT, PENDING,
    PLACE_WORDS, QUEUE_COUNT, REVOKED, RUNNING, SENT_OUT, SIZE, SWAP_AT, SWAP_COUNT, TIMER,
    USED_UP,
};
use super::words_of;
use crate::generator::{Flavour, FLAVOURS};
use crate::node::{
    Operation, DESCRIPTOR_WORDS, FRAMES, GROUPS, MESSAGE_WORDS, PAGES, PAGE_PLACES, QUEUE_PLACES,
    SWAP_PAGES, TIMEOUT,
};
use crate::random::Random;
use crate::script;

/// A script that leads to a node has at most 2 to one of these powers lines.
const SCRIPT_LINES: [u64; 2] = [5, 11];
/// One of a flavour that fills the frames has so many: enough for all pages.
const FILLING: [&str; 3] = ["arrivals", "swap", "swaptime"];
const FILLING_LINES: [u64; 2] = [300, 1500];
/// At most so many words are changed at random.
const MOST_WORDS: u64 = 8;
/// A longer memory has at most so many words past the node.
const MOST_PAST: u64 = 100;

/// A node that a script of some flavour leads to, after few lines as often as after many; often of one
/// that leaves pages in swap.
pub fn reachable(random: &mut Random) -> Vec<u32> {
    let (flavour, lines) = if random.one_in(3) {
        let lines = random.between(FILLING_LINES[0], FILLING_LINES[1]);
        (named(random.pick(&FILLING)), lines)
    } else {
        let power = random.between(SCRIPT_LINES[0], SCRIPT_LINES[1]);
        let flavour = &FLAVOURS[below(random, FLAVOURS.len())];
        (flavour, random.between(0, 1 << power))
    };
    words_of(&script::node_after(&flavour.script(random.draw(), lines)))
}

fn named(name: &str) -> &'static Flavour {
    Flavour::named(name).expect("a flavour of this name")
}

/// Any operation, an unknown one too.
pub fn operation(random: &mut Random) -> Operation {
    let name = if random.one_in(20) { "bad" } else { "uniform" };
    let line = named(name).script(random.draw(), 1);
    script::read(line.strip_suffix(b"\n").unwrap_or(&line))
}

/// Makes any memory of a node's: the node or a changed one, most often of the node's size.
pub fn vary(memory: &mut Vec<u32>, random: &mut Random) {
    match random.between(1, 8) {
        1 | 2 => (),
        3 => change_words(memory, random),
        8 => (0..2).for_each(|_| any_change(memory, random)),
        _ => any_change(memory, random),
    }
    let length = match random.between(1, 8) {
        1 => Length::TooShort,
        2 => Length::Longer,
        _ => Length::Exact,
    };
    length.give(memory, random);
}

/// How long a memory is, measured by a node.
#[derive(Clone, Copy, Debug)]
pub enum Length {
    TooShort,
    Exact,
    Longer,
}

impl Length {
    /// Cuts the memory, or puts random words behind it.
    pub fn give(self, memory: &mut Vec<u32>, random: &mut Random) {
        let size = match self {
            Length::TooShort if random.one_in(4) => SIZE - 1,
            Length::TooShort => below(random, SIZE),
            Length::Exact => SIZE,
            Length::Longer => SIZE + random.between(1, MOST_PAST) as usize,
        };
        memory.resize_with(size, || random.draw() as u32);
    }
}

/// Changes one to eight words of the node, most often among the numbers around the pages.
pub fn change_words(memory: &mut [u32], random: &mut Random) {
    let words = random.between(1, MOST_WORDS) as usize;
    let mut changed = Vec::new();
    while changed.len() < words {
        let parts = [(0, PAGES_AT), (0, PAGES_AT), (SWAP_COUNT, SIZE), (0, SIZE)];
        let (start, end) = random.pick(&parts);
        let at = start + below(random, end - start);
        if !changed.contains(&at) {
            changed.push(at);
            change(memory, random, at, PAGES);
        }
    }
}

/// A change at a chosen place of a node, to an edge of its bounds or beyond. The memory has at
/// least a node's size; it need not be a node.
pub struct Change {
    pub name: &'static str,
    make: fn(&mut [u32], &mut Random),
}

pub static CHANGES: [Change; 29] = [
    Change {
        name: "the running group",
        make: |memory, random| change(memory, random, RUNNING, GROUPS),
    },
    Change {
        name: "the timer",
        make: |memory, random| change(memory, random, TIMER, TIMEOUT as usize - 1),
    },
    Change {
        name: "counts",
        make: change_count,
    },
    Change {
        name: "used-up places",
        make: change_used_up,
    },
    Change {
        name: "messages in a buffer",
        make: change_messages,
    },
    Change {
        name: "used-up places and no message",
        make: use_up_all,
    },
    Change {
        name: "flags",
        make: change_flag,
    },
    Change {
        name: "the flags of a section",
        make: change_section,
    },
    Change {
        name: "a forced timer",
        make: force_timer,
    },
    Change {
        name: "groups",
        make: change_group,
    },
    Change {
        name: "lengths",
        make: change_length,
    },
    Change {
        name: "the free line",
        make: |memory, random| change_in(memory, random, FREE_AT, FRAMES),
    },
    Change {
        name: "the swap line",
        make: |memory, random| change_in(memory, random, SWAP_AT, SWAP_PAGES),
    },
    Change {
        name: "the order of entry",
        make: |memory, random| change_in(memory, random, ENTRY_AT, FRAMES),
    },
    Change {
        name: "frames that entered in another order",
        make: |memory, random| {
            let entered = words(memory).entry_order().collect();
            exchange(memory, random, entered);
        },
    },
    Change {
        name: "pages sent out and brought in",
        make: change_paging,
    },
    Change {
        name: "lists",
        make: change_list,
    },
    Change {
        name: "pages exchanged",
        make: |memory, random| {
            let words = words(memory);
            let lines = words.free_line().chain(words.swap_line());
            let standing = lines.chain(words.listed()).collect();
            let numbers = exchange(memory, random, standing);
            if random.one_in(2) {
                exchange_places(memory, numbers);
            }
        },
    },
    Change {
        name: "a first page sent out",
        make: exchange_first,
    },
    Change {
        name: "unused words",
        make: change_unused,
    },
    Change {
        name: "a stray word in a free frame",
        make: |memory, random| stray(memory, random, |words| words.free_frames().collect()),
    },
    Change {
        name: "a stray word in a free swap page",
        make: |memory, random| stray(memory, random, |words| words.free_swap_pages().collect()),
    },
    Change {
        name: "a stray word in a used-up place",
        make: |memory, random| stray(memory, random, |words| words.used_up_places().collect()),
    },
    Change {
        name: "a stray word behind the last message",
        make: |memory, random| stray(memory, random, |words| words.unwritten_places().collect()),
    },
    Change {
        name: "a message in the queue",
        make: |memory, random| {
            let group = runner_or_any(memory, random);
            forge_queued(memory, random, group);
        },
    },
    Change {
        name: "a message in a buffer",
        make: |memory, random| {
            let group = runner_or_any(memory, random);
            forge_buffered(memory, random, group);
        },
    },
    Change {
        name: "all frames filled",
        make: |memory, random| fill_until(memory, random, |words| words.free_count() == 0),
    },
    Change {
        name: "all pages filled",
        make: |memory, random| {
            fill_until(memory, random, |words| {
                words.free_count() + words.swap_count() == 0
            });
        },
    },
    Change {
        name: "a queued message of each group that needs a page",
        make: crowd,
    },
];

impl Change {
    pub fn make(&self, memory: &mut [u32], random: &mut Random) {
        (self.make)(memory, random);
    }
}

fn any_change(memory: &mut [u32], random: &mut Random) {
    CHANGES[below(random, CHANGES.len())].make(memory, random);
}

fn change_count(memory: &mut [u32], random: &mut Random) {
    let record = any_record(random);
    let (at, most) = random.pick(&[
        (QUEUE_COUNT, QUEUE_PLACES),
        (FREE_COUNT, FRAMES),
        (SWAP_COUNT, SWAP_PAGES),
        (ENTRY_COUNT, FRAMES),
        (record + LIST_COUNT, PAGES),
        (record + DESCRIPTOR_COUNT, DESCRIPTOR_WORDS),
    ]);
    change(memory, random, at, most);
}

/// As often as not n changes the other way, so that the messages end where they did.
fn change_used_up(memory: &mut [u32], random: &mut Random) {
    let group = a_buffered(memory, random);
    let record = group_at(group);
    let end = words(memory).group(group).end() as u32;
    change(memory, random, record + USED_UP, PAGE_PLACES - 1);
    if random.one_in(2) {
        memory[record + MESSAGES] = end.wrapping_sub(memory[record + USED_UP]);
    }
    often_fit(memory, random, group);
}

/// To an edge, or to about what the list has room for, so that h + n is small only in 32 bits.
fn change_messages(memory: &mut [u32], random: &mut Random) {
    let group = a_buffered(memory, random);
    let (at, used_up) = (
        group_at(group) + MESSAGES,
        memory[group_at(group) + USED_UP],
    );
    let places = words(memory).group(group).list_count() * PAGE_PLACES;
    if random.one_in(3) {
        let sums = random.pick(&[places + 2, used_up.max(1) as usize]);
        memory[at] = (below(random, sums) as u32).wrapping_sub(used_up);
    } else {
        change(memory, random, at, places);
    }
    often_fit(memory, random, group);
}

/// More often than not, what stands in a buffer's places fits h and n, their sum taken in 32 bits.
fn often_fit(memory: &mut [u32], random: &mut Random, group: usize) {
    if !random.one_in(4) {
        let record = words(memory).group(group);
        let (used_up, end) = (record.used_up(), record.end() as u32);
        fit(memory, random, group, used_up..used_up.max(end.into()));
    }
}

/// A message in each of these places of a group's buffer, and 0 in all others.
fn fit(memory: &mut [u32], random: &mut Random, group: usize, waiting: Range<u64>) {
    let words = words(memory);
    let before = words.places(group, 0..waiting.start);
    let behind = words.places(group, waiting.end..u64::MAX);
    let wiped: Vec<usize> = before.chain(behind).collect();
    let waiting = words.places(group, waiting);
    let unwritten: Vec<usize> = waiting.filter(|&at| memory[at] == 0).collect();
    for at in wiped {
        memory[at..][..PLACE_WORDS].fill(0);
    }
    for at in unwritten {
        forge(memory, random, at);
    }
}

/// A buffer of one page that holds no message has its rounded-up length all the same.
fn use_up_all(memory: &mut [u32], random: &mut Random) {
    let of_one_page = (1..=GROUPS).filter(|&group| words(memory).group(group).list_count() == 1);
    let of_one_page = of_one_page.collect();
    let any = 1 + below(random, GROUPS);
    let group = one_of(random, of_one_page, any);
    memory[group_at(group) + USED_UP] = random.between(1, PAGE_PLACES as u64 - 1) as u32;
    memory[group_at(group) + MESSAGES] = 0;
    fit(memory, random, group, 0..0);
}

fn change_flag(memory: &mut [u32], random: &mut Random) {
    let at = any_record(random) + random.pick(&[ATOMIC, PENDING, FORCE, REVOKED]);
    if random.one_in(4) {
        change(memory, random, at, 1);
    } else {
        memory[at] ^= 1;
    }
}

/// Often the runner's; more often in a section than not.
fn change_section(memory: &mut [u32], random: &mut Random) {
    let record = group_at(runner_or_any(memory, random));
    memory[record + ATOMIC] = (!random.one_in(4)).into();
    memory[record + FORCE] = random.between(0, 1) as u32;
    memory[record + REVOKED] = random.between(0, 1) as u32;
}

/// Of the runner or of a group that does not run, whose force leaves an idle timer at 0.
fn force_timer(memory: &mut [u32], random: &mut Random) {
    let record = group_at(runner_or_any(memory, random));
    memory[record + ATOMIC] = 1;
    memory[record + FORCE] = 1;
    memory[TIMER] = below(random, TIMEOUT as usize) as u32;
}

fn change_group(memory: &mut [u32], random: &mut Random) {
    let queued = words(memory).queued().collect();
    let at = one_of(random, queued, queued_at(0));
    change(memory, random, at, GROUPS);
}

fn change_length(memory: &mut [u32], random: &mut Random) {
    let waiting = words(memory).waiting().collect();
    let at = one_of(random, waiting, place_at(0, 0));
    change(memory, random, at, MESSAGE_WORDS);
}

/// A number of a line that begins at an address and has so many places.
fn change_in(memory: &mut [u32], random: &mut Random, at: usize, places: usize) {
    let at = at + below(random, places);
    let most = random.pick(&[FRAMES - 1, PAGES - 1]);
    change(memory, random, at, most);
}

fn change_list(memory: &mut [u32], random: &mut Random) {
    let unused = any_record(random) + LIST_AT + below(random, PAGES);
    let at = one_of(random, words(memory).listed().collect(), unused);
    change(memory, random, at, PAGES - 1);
}

/// To any number, often to one where the count stays or is about to.
fn change_paging(memory: &mut [u32], random: &mut Random) {
    for at in [SENT_OUT, BROUGHT_IN] {
        memory[at] = match random.between(1, 3) {
            1 => random.draw() as u32,
            _ => u32::MAX - random.between(0, 2) as u32,
        };
    }
}

/// Two of the numbers at these addresses change places; returns where they stand.
fn exchange(memory: &mut [u32], random: &mut Random, standing: Vec<usize>) -> [usize; 2] {
    let one = one_of(random, standing.clone(), FREE_AT);
    let other = one_of(random, standing, FREE_AT);
    memory.swap(one, other);
    [one, other]
}

/// What the pages of these two numbers keep changes places.
fn exchange_places(memory: &mut [u32], numbers: [usize; 2]) {
    let [one, other] = numbers.map(|at| memory[at] as usize);
    if one < PAGES && other < PAGES {
        for word in 0..PAGE_PLACES * PLACE_WORDS {
            memory.swap(place_at(one, 0) + word, place_at(other, 0) + word);
        }
    }
}

/// A group's first page, often the runner's, with a page that is out.
fn exchange_first(memory: &mut [u32], random: &mut Random) {
    let first = group_at(runner_or_any(memory, random)) + LIST_AT;
    let listed = words(memory).listed();
    let out = listed.filter(|&at| memory[at] as usize >= FRAMES).collect();
    let other = one_of(random, out, first);
    memory.swap(first, other);
    exchange_places(memory, [first, other]);
}

/// What is asked to be 0.
fn change_unused(memory: &mut [u32], random: &mut Random) {
    let words = words(memory);
    let unused: Vec<usize> = match random.between(1, 7) {
        1 => words.queue_rest().collect(),
        2 => words.free_rest().collect(),
        3 => words.swap_rest().collect(),
        4 => words.entry_rest().collect(),
        5 => words.list_rest().collect(),
        6 => words.descriptor_rest().collect(),
        _ => words.message_rest().collect(),
    };
    let at = one_of(random, unused, FREE_AT - 1);
    change(memory, random, at, 1);
}

/// A kept length, or as often a word, of a place that is to be 0, if there is one. The places are
/// handed over by their words.
fn stray(memory: &mut [u32], random: &mut Random, wiped: fn(&Words) -> Vec<usize>) {
    let wiped = wiped(&words(memory));
    let places: Vec<&[usize]> = wiped.chunks_exact(PLACE_WORDS).collect();
    if !places.is_empty() {
        let (length, words) = random.pick(&places).split_at(1);
        let part = random.pick(&[length, words]);
        let at = random.pick(part);
        change(memory, random, at, MESSAGE_WORDS);
    }
}

/// A message at the end of the hardware queue. In a full queue it takes the place of the last.
fn forge_queued(memory: &mut [u32], random: &mut Random, group: usize) {
    let place = words(memory).queue_count().min(QUEUE_PLACES - 1);
    memory[QUEUE_COUNT] = place as u32 + 1;
    memory[queued_at(place)] = group as u32;
    forge(memory, random, queued_at(place) + 1);
}

/// A message of each group in the queue, the runner's first, while no frame is free and every last page is
/// full; the groups' first pages have been in their frames longest. Whoever takes the processor now sends
/// them out.
fn crowd(memory: &mut [u32], random: &mut Random) {
    if words(memory).queue_count() == 0 {
        let direct = (1..=GROUPS).filter(|&group| is_direct(memory, group));
        memory[RUNNING] = one_of(random, direct.collect(), 1) as u32;
        memory[TIMER] = 0;
    }
    let runner = words(memory).running().clamp(1, GROUPS);
    memory[group_at(runner) + ATOMIC] = 1;
    fill_until(memory, random, |words| words.free_count() == 0);
    let others = (1..=GROUPS).filter(|&group| group != runner);
    for group in others.clone() {
        fill_last_page(memory, random, group);
    }
    let lists = (1..=GROUPS).map(|group| words(memory).group(group).list());
    let firsts: Vec<u32> = lists.filter_map(|list| list.first().copied()).collect();
    let entered = words(memory).entry_order();
    memory[entered].sort_by_key(|frame| !firsts.contains(frame));
    for group in std::iter::once(runner).chain(others) {
        forge_queued(memory, random, group);
    }
}

fn is_direct(memory: &[u32], group: usize) -> bool {
    let record = words(memory).group(group);
    record.messages() == 0 && record.revoked() == 0
}

fn fill_last_page(memory: &mut [u32], random: &mut Random, group: usize) {
    let end = words(memory).group(group).end() as usize % PAGE_PLACES;
    for _ in end..end.div_ceil(PAGE_PLACES) * PAGE_PLACES {
        forge_buffered(memory, random, group);
    }
}

/// Messages in the buffer of a group that does not run, until enough are there: what is in the queue
/// may find no frame then, or no page at all.
fn fill_until(memory: &mut [u32], random: &mut Random, enough: fn(&Words) -> bool) {
    let group = 1 + (words(memory).running() + below(random, GROUPS - 1)) % GROUPS;
    for _ in 0..PAGES * PAGE_PLACES {
        if enough(&words(memory)) {
            break;
        }
        forge_buffered(memory, random, group);
    }
}

/// A message at the end of a group's buffer. If the list needs another page, it gets the last of the
/// free line or else of the swap line; if none is left, n grows all the same.
fn forge_buffered(memory: &mut [u32], random: &mut Random, group: usize) {
    let at = group_at(group);
    let record = words(memory).group(group);
    let (place, listed) = (record.used_up() + record.messages(), record.list_count());
    if place == (listed * PAGE_PLACES) as u64 {
        if let Some(page) = taken_page(memory) {
            memory[at + LIST_COUNT] = listed as u32 + 1;
            memory[at + LIST_AT + listed % PAGES] = page;
        }
    }
    memory[at + MESSAGES] = memory[at + MESSAGES].wrapping_add(1);
    if let Some(kept) = words(memory).buffered(group).last() {
        forge(memory, random, kept);
    }
}

/// The last page of the free line, which then is the last to have entered, or else of the swap line.
fn taken_page(memory: &mut [u32]) -> Option<u32> {
    let entered = words(memory).entry_count();
    if let Some(last) = words(memory).free_line().last() {
        let frame = std::mem::take(&mut memory[last]);
        memory[FREE_COUNT] = (last - FREE_AT) as u32;
        memory[ENTRY_AT + entered % FRAMES] = frame;
        memory[ENTRY_COUNT] = entered as u32 + 1;
        return Some(frame);
    }
    let last = words(memory).swap_line().last()?;
    memory[SWAP_COUNT] = (last - SWAP_AT) as u32;
    Some(std::mem::take(&mut memory[last]))
}

/// A message of any length: its words, and 0 past them.
fn forge(memory: &mut [u32], random: &mut Random, at: usize) {
    let length = random.between(1, MESSAGE_WORDS as u64) as usize;
    memory[at] = length as u32;
    memory[at + 1..][..MESSAGE_WORDS].fill(0);
    memory[at + 1..][..length].fill_with(|| random.draw() as u32);
}

/// Puts another number at an address: an edge of the bounds 0 to `most` or beyond, one within them,
/// one beside what stands there, one that differs from it in a bit, or any.
fn change(memory: &mut [u32], random: &mut Random, at: usize, most: usize) {
    let (now, most) = (memory[at], most as u32);
    while memory[at] == now {
        let edge = random.pick(&[0, 1, most, most + 1, 1 << 8, 1 << 16, 1 << 31, u32::MAX]);
        let within = random.between(0, most.into()) as u32;
        let beside = random.pick(&[now.wrapping_sub(1), now.wrapping_add(1)]);
        let flipped = now ^ 1 << random.between(0, 31);
        let any = random.draw() as u32;
        memory[at] = random.pick(&[edge, edge, within, beside, flipped, any]);
    }
}

fn words(memory: &[u32]) -> Words<'_> {
    Words(&memory[..SIZE])
}

fn below(random: &mut Random, end: usize) -> usize {
    random.between(0, end as u64 - 1) as usize
}

fn one_of(random: &mut Random, addresses: Vec<usize>, if_none: usize) -> usize {
    if addresses.is_empty() {
        return if_none;
    }
    random.pick(&addresses)
}

fn any_record(random: &mut Random) -> usize {
    group_at(1 + below(random, GROUPS))
}

/// A group whose buffer holds a message, if there is one.
fn a_buffered(memory: &[u32], random: &mut Random) -> usize {
    let buffered = (1..=GROUPS).filter(|&group| words(memory).group(group).messages() > 0);
    let any = 1 + below(random, GROUPS);
    one_of(random, buffered.collect(), any)
}

fn runner_or_any(memory: &[u32], random: &mut Random) -> usize {
    let any = 1 + below(random, GROUPS);
    let running = words(memory).running();
    if (1..=GROUPS).contains(&running) && random.one_in(2) {
        return running;
    }
    any
}
