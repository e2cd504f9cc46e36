//! What a node holds, as text, and a node read from the bytes of its memory.

use std::fs;
use std::io;

use judge::dump;
use judge::memory;
use judge::node::Node;
use judge::script;
use judge::state;

use crate::support::{bytes, memory_after, operations, power_on, vectors};

/// The node in a file of these bytes, or what is told of them.
fn read(file: &[u8]) -> Result<Node, String> {
    let dump = dump::read(file).expect("memory is read without error");
    dump.map(|dump| dump.node)
        .map_err(|no_node| no_node.to_string())
}

fn state_of(memory: &[u32]) -> String {
    state::text(&read(&bytes(memory)).expect("a node"))
}

/// The groups from one to another as they are at power-on.
fn idle(first: usize, last: usize) -> String {
    let flags = "atomic 0 pending 0 force 0 revoked 0";
    let group = |g| format!("group {g} {flags} h 0 n 0 pages descriptor\n");
    (first..=last).map(group).collect()
}

/// The numbers from one to another, each with a blank before it.
fn numbers(first: usize, last: usize) -> String {
    (first..=last).map(|number| format!(" {number}")).collect()
}

#[test]
fn power_on_has_all_frames_and_swap_pages_free_and_no_more() {
    let (frames, swap_pages) = (numbers(0, 31), numbers(0, 63));
    let lines = format!("free{frames}\nentry\nswap-free{swap_pages}\nout 0 in 0\n");
    let expected = format!("running 0\ntimer 0\n{lines}{}", idle(1, 8));
    assert_eq!(state_of(&power_on()), expected);
}

#[test]
fn the_whole_case() {
    let script = include_bytes!("../../../examples/whole-case.script");
    let expected = include_str!("../../../examples/whole-case.state");
    assert_eq!(state_of(&memory_of(script)), expected);
}

#[test]
fn every_fact_has_its_place() {
    let memory = memory_after(
        "A,3,10,11 A,3,20 A,4,4294967295 A,3,3 A,3,4 A,3,5 A,3,6 A,3,7 A,3,8 A,3,9 S,3 D D S,5 B,1 \
         S,6 B A,6,1 T,256 D S,1 P,9 P,8 A,1,7 A,2,5,6 A,1,4,4,4 T,5",
    );
    let expected = format!(
        "\
running 1
timer 5
queued 1 words 7 0 0 0 0 0 0 0
queued 2 words 5 6 0 0 0 0 0 0
queued 1 words 4 4 4 0 0 0 0 0
free{}
entry 0 1 2
swap-free{}
out 0 in 0
group 1 atomic 1 pending 1 force 0 revoked 0 h 0 n 0 pages descriptor 9 8
{}group 3 atomic 1 pending 0 force 0 revoked 0 h 2 n 7 pages f0 f2 descriptor
group 4 atomic 0 pending 0 force 0 revoked 0 h 0 n 1 pages f1 descriptor
group 5 atomic 1 pending 0 force 1 revoked 0 h 0 n 0 pages descriptor
group 6 atomic 1 pending 0 force 0 revoked 1 h 0 n 0 pages descriptor
{}f0 place 2 length 1 words 3 0 0 0 0 0 0 0
f0 place 3 length 1 words 4 0 0 0 0 0 0 0
f0 place 4 length 1 words 5 0 0 0 0 0 0 0
f0 place 5 length 1 words 6 0 0 0 0 0 0 0
f0 place 6 length 1 words 7 0 0 0 0 0 0 0
f0 place 7 length 1 words 8 0 0 0 0 0 0 0
f1 place 0 length 1 words 4294967295 0 0 0 0 0 0 0
f2 place 0 length 1 words 9 0 0 0 0 0 0 0
",
        numbers(4, 31) + " 3",
        numbers(0, 63),
        idle(2, 2),
        idle(7, 8)
    );
    assert_eq!(state_of(&memory), expected);
}

#[test]
fn no_free_page_leaves_the_lines_bare() {
    let state = state_of(&memory_after(&"A,8,1 ".repeat(768)));
    let lines: Vec<&str> = state.lines().collect();
    assert_eq!(lines[2], "free");
    assert_eq!(lines[4..6], ["swap-free", "out 64 in 0"]);
    assert_eq!(lines.len(), 6 + 8 + 768);
}

#[test]
fn a_page_is_told_by_where_it_is() {
    let state = state_of(&memory_after(&"A,8,1 ".repeat(257)));
    let lines: Vec<&str> = state.lines().collect();
    assert_eq!(lines[3], format!("entry{} 0", numbers(1, 31)));
    assert_eq!(lines[4], format!("swap-free{}", numbers(1, 63)));
    assert_eq!(lines[5], "out 1 in 0");
    assert!(lines[13]
        .starts_with("group 8 atomic 0 pending 0 force 0 revoked 0 h 0 n 257 pages s0 f1 "));
    assert!(lines[13].ends_with(" f30 f31 f0 descriptor"));
    assert_eq!(
        *lines.last().expect("a line"),
        "s0 place 7 length 1 words 1 0 0 0 0 0 0 0"
    );
}

/// A message whose words are 0 has its length, and a place without one is not told.
#[test]
fn a_place_is_told_where_a_message_waits() {
    let told = state_of(&memory_after("A,1,9 A,1,0,0,0 A,1,0,5 S,1 D"));
    let expected = "f0 place 1 length 3 words 0 0 0 0 0 0 0 0\n\
                    f0 place 2 length 2 words 0 5 0 0 0 0 0 0\n";
    assert!(told.ends_with(&format!("descriptor\n{expected}")));
}

/// The memory after a script, stepped in memory.
fn memory_of(script: &[u8]) -> Vec<u32> {
    let mut memory = power_on();
    for operation in operations(script) {
        memory::step(&mut memory, &operation);
    }
    memory
}

#[test]
fn memories_after_every_script_read_back_to_the_same_state() {
    let mut states = 0;
    for path in vectors() {
        let script = fs::read(&path).expect("a script");
        let (node, memory) = (script::node_after(&script), memory_of(&script));
        assert!(memory == memory::words_of(&node), "{}", path.display());
        assert!(read(&bytes(&memory)).as_ref() == Ok(&node));
        let told = state_of(&memory);
        assert_eq!(told, state::text(&node));
        if let Ok(state) = fs::read_to_string(path.with_extension("state")) {
            assert!(told == state, "{}", path.display());
            states += 1;
        }
    }
    assert!(states >= 170, "{states}");
}

#[test]
fn words_have_their_lowest_byte_first() {
    let mut file = bytes(&power_on());
    file[..4].copy_from_slice(&[8, 0, 0, 0]);
    assert_eq!(read(&file).map(|node| node.running), Ok(8));
    file[..4].copy_from_slice(&[0, 0, 0, 8]);
    let told = read(&file).expect_err("no node");
    assert!(
        told.ends_with("word 0, the running group: 134217728"),
        "{told}"
    );
}

#[test]
fn a_file_shorter_than_a_node_is_told_by_its_words() {
    let whole = bytes(&power_on());
    for (length, words) in [
        (0, 0),
        (1, 0),
        (3, 0),
        (4, 1),
        (32_412, 8103),
        (32_415, 8103),
    ] {
        let told = format!("memory too short: {words} words, a node has 8104");
        assert_eq!(read(&whole[..length]), Err(told));
    }
}

#[test]
fn a_longer_file_is_a_node_by_its_first_words() {
    let memory = memory_after("A,1,7 S,1");
    let node = read(&bytes(&memory)).expect("a node");
    for past in [1, 2, 8104, 100_000] {
        let longer = [memory.clone(), vec![u32::MAX; past]].concat();
        assert_eq!(read(&bytes(&longer)).as_ref(), Ok(&node));
    }
}

#[test]
fn a_file_with_a_ragged_end_is_no_node() {
    let memory = [power_on(), vec![7; 3]].concat();
    for length in [32_417, 32_419, 32_421, 32_427] {
        let told = format!("the last word is cut short: {length} bytes");
        assert_eq!(read(&bytes(&memory)[..length]), Err(told));
    }
}

/// Up to 16 MiB a stream may have an end.
#[test]
fn a_stream_that_does_not_end_is_no_node() {
    let longest = 16 << 20;
    let whole = bytes(&power_on());
    let behind = |length: usize| io::Read::take(io::repeat(7), (length - whole.len()) as u64);
    let streamed = |length| dump::read(io::Read::chain(whole.as_slice(), behind(length)));
    let told = |length| match streamed(length).expect("memory is read without error") {
        Ok(dump) => format!("a node and {} words", dump.words_behind),
        Err(no_node) => no_node.to_string(),
    };
    assert_eq!(told(longest), "a node and 4186200 words");
    let endless = "it does not end within 16777216 bytes";
    assert_eq!(told(longest + 4), endless);
    assert_eq!(told(longest + 1), endless);
    let ragged = "the last word is cut short: 16777215 bytes";
    assert_eq!(told(longest - 1), ragged);
}
