//! The node in lent memory: power-on, the step, the head message.
//!
//! A step reads the records out of the words, steps them, and writes them back.

mod clauses;
mod map;
pub mod trials;

pub use clauses::{broken_clause, clauses, fault, Fault};
pub use map::{what_stands_at, PAGES_AT, SIZE};

use std::collections::VecDeque;
use std::ops::Range;

use crate::node::{Group, Message, Node, Operation, Page, Place, Refusal, Report};
use map::{
    group_at, message, place_at, queued_at, Record, Words, ATOMIC, BROUGHT_IN, DESCRIPTOR_AT,
    DESCRIPTOR_COUNT, ENTRY_AT, ENTRY_COUNT, FORCE, FREE_AT, FREE_COUNT, LIST_AT, LIST_COUNT,
    MESSAGES, PENDING, PLACE_WORDS, QUEUE_COUNT, REVOKED, RUNNING, SENT_OUT, SWAP_AT, SWAP_COUNT,
    TIMER, USED_UP,
};

/// Makes the memory a node at power-on. "Power-on tests only the size."
pub fn power_on(memory: &mut [u32]) -> u32 {
    if memory.len() < SIZE {
        return Refusal::NotANode as u32;
    }
    write(&Node::power_on(), memory);
    0
}

/// One step. Answer 1 is "Tested first, at every step", and of a refused step "nothing in memory
/// changes".
pub fn step(memory: &mut [u32], operation: &Operation) -> Report {
    let Ok(mut node) = read(memory) else {
        return Report::refused(Refusal::NotANode);
    };
    let report = node.step(operation);
    if report.accepted() {
        write(&node, memory);
    }
    report
}

/// The words of the running group's first message "as a part of the lent memory, no copy", "an
/// empty part if there is none or the memory is no node".
pub fn head(memory: &[u32]) -> &[u32] {
    &memory[head_part(memory)]
}

/// Where that part stands; an empty one stands at 0.
pub fn head_part(memory: &[u32]) -> Range<usize> {
    let runner = clauses::test(memory).ok().filter(|w| w.running() > 0);
    let first = runner.and_then(|w| w.waiting_of(w.running()).next());
    first.map_or(0..0, |at| at + 1..at + 1 + memory[at] as usize)
}

/// "A separate call gives pages sent out and brought in so far"; zeros where the memory is no node.
pub fn paging(memory: &[u32]) -> [u32; 2] {
    clauses::test(memory).map_or([0, 0], |words| [words.sent_out(), words.brought_in()])
}

/// The records that stand in the memory, or why it is no node.
pub fn read(memory: &[u32]) -> Result<Node, Fault> {
    let words = clauses::test(memory)?;
    Ok(Node {
        running: words.running(),
        timer: words.timer(),
        queue: words.queued().map(|at| read_queued(&words, at)).collect(),
        free: read_numbers(&words.0[words.free_line()]),
        swap_free: read_numbers(&words.0[words.swap_line()]),
        entry: read_numbers(&words.0[words.entry_order()]),
        sent_out: words.sent_out(),
        brought_in: words.brought_in(),
        groups: std::array::from_fn(|at| read_group(&words.group(at + 1))),
        pages: std::array::from_fn(|page| read_page(&words, page)),
        events: Vec::new(),
        passages: Vec::new(),
    })
}

fn read_queued(words: &Words, at: usize) -> Message {
    Message {
        group: words.0[at] as usize,
        words: message(words.kept(at + 1)).to_vec(),
    }
}

fn read_group(record: &Record) -> Group {
    let mut group = Group {
        atomic: record.atomic() == 1,
        pending: record.pending() == 1,
        force: record.force() == 1,
        revoked: record.revoked() == 1,
        descriptor: record.descriptor().to_vec(),
        ..Group::default()
    };
    group.buffer.used_up = record.used_up() as usize;
    group.buffer.messages = record.messages() as usize;
    group.buffer.pages = read_numbers(record.list());
    group
}

fn read_numbers(words: &[u32]) -> VecDeque<usize> {
    words.iter().map(|&number| number as usize).collect()
}

fn read_page(words: &Words, page: usize) -> Page {
    std::array::from_fn(|place| {
        let kept = words.kept(place_at(page, place));
        Place {
            length: kept[0],
            words: std::array::from_fn(|word| kept[1 + word]),
        }
    })
}

/// The memory of a node, of just its size.
pub fn words_of(node: &Node) -> Vec<u32> {
    let mut memory = vec![0; SIZE];
    write(node, &mut memory);
    memory
}

/// Writes the records into the first words of the memory: unused places are 0.
fn write(node: &Node, memory: &mut [u32]) {
    let memory = &mut memory[..SIZE];
    memory.fill(0);
    memory[RUNNING] = node.running as u32;
    memory[TIMER] = node.timer;
    memory[QUEUE_COUNT] = node.queue.len() as u32;
    memory[FREE_COUNT] = node.free.len() as u32;
    memory[SWAP_COUNT] = node.swap_free.len() as u32;
    memory[ENTRY_COUNT] = node.entry.len() as u32;
    memory[SENT_OUT] = node.sent_out;
    memory[BROUGHT_IN] = node.brought_in;
    for (place, message) in node.queue.iter().enumerate() {
        write_queued(message, &mut memory[queued_at(place)..]);
    }
    write_numbers(&node.free, &mut memory[FREE_AT..]);
    write_numbers(&node.swap_free, &mut memory[SWAP_AT..]);
    write_numbers(&node.entry, &mut memory[ENTRY_AT..]);
    for (at, group) in node.groups.iter().enumerate() {
        write_group(group, &mut memory[group_at(at + 1)..]);
    }
    for (number, page) in node.pages.iter().enumerate() {
        write_page(page, &mut memory[place_at(number, 0)..]);
    }
}

fn write_queued(message: &Message, words: &mut [u32]) {
    words[0] = message.group as u32;
    words[1] = message.words.len() as u32;
    words[2..2 + message.words.len()].copy_from_slice(&message.words);
}

fn write_group(group: &Group, words: &mut [u32]) {
    words[ATOMIC] = group.atomic.into();
    words[PENDING] = group.pending.into();
    words[FORCE] = group.force.into();
    words[REVOKED] = group.revoked.into();
    words[USED_UP] = group.buffer.used_up as u32;
    words[MESSAGES] = group.buffer.messages as u32;
    words[LIST_COUNT] = group.buffer.pages.len() as u32;
    words[DESCRIPTOR_COUNT] = group.descriptor.len() as u32;
    words[DESCRIPTOR_AT..][..group.descriptor.len()].copy_from_slice(&group.descriptor);
    write_numbers(&group.buffer.pages, &mut words[LIST_AT..]);
}

fn write_page(page: &Page, words: &mut [u32]) {
    for (place, words) in page.iter().zip(words.chunks_exact_mut(PLACE_WORDS)) {
        words[0] = place.length;
        words[1..].copy_from_slice(&place.words);
    }
}

fn write_numbers(numbers: &VecDeque<usize>, words: &mut [u32]) {
    for (word, &number) in words.iter_mut().zip(numbers) {
        *word = number as u32;
    }
}
