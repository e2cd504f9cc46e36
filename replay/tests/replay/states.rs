//! What stands in a page against the calls, the judge and the listings.

use fugu::{Node, SIZE};
use judge::node::{FRAMES, GROUPS, MESSAGE_WORDS, PAGE_PLACES, QUEUE_PLACES, SWAP_PAGES, TIMEOUT};

use crate::support::{page_of, put, replay, scripts, whole_case, written, Data, Script};

fn lines(script: &[u8]) -> impl Iterator<Item = &[u8]> {
    let lines = script.split_inclusive(|&byte| byte == b'\n');
    lines.map(|line| line.strip_suffix(b"\n").unwrap_or(line))
}

/// The changes add up to the memory after each line, as the calls have it and as the judge has it.
fn states_agree(script: &Script, data: &Data) {
    let mut memory = data.start();
    let mut node = Node::power_on(vec![0; SIZE]).unwrap();
    let mut judged = judge::node::Node::power_on();
    assert_eq!(memory, node.memory());
    for (line, [number, _, _, changes, _]) in lines(&script.bytes).zip(&data.lines) {
        put(&mut memory, changes);
        node.line(line);
        judged.step(&judge::script::read(line));
        assert_eq!(memory, node.memory(), "{}, line {number}", script.name);
        let judged = judge::memory::words_of(&judged);
        assert_eq!(memory, judged, "{}, line {number}, judged", script.name);
    }
}

/// The reports are the listing.
fn reports_agree(script: &Script, data: &Data) {
    let mut listing = judge::script::HEADER.to_string() + "\n";
    for [number, _, report, ..] in &data.lines {
        listing += &format!("{number},{report}\n");
    }
    assert_eq!(listing.as_bytes(), script.listing, "{}", script.name);
}

/// The reasons are those of the proved call, each without its words.
fn reasons_agree(script: &Script, data: &Data) {
    let told = String::from_utf8(fugu::why_all(&script.bytes)).unwrap();
    let expected = told
        .lines()
        .map(|line| line.rsplit_once(':').unwrap().0.to_string());
    let arrivals = data.lines.iter().filter(|[.., reason]| !reason.is_empty());
    let reasons = arrivals.map(|[number, .., reason]| {
        let (reason, at) = reason.split_once(" at ").unwrap();
        format!("line {number}: reason {reason} at line {at}")
    });
    assert!(expected.eq(reasons), "{}", script.name);
}

/// Each line's bytes come back.
fn bytes_agree(script: &Script, data: &Data) {
    let shown = data
        .lines
        .iter()
        .map(|[_, text, ..]| replay::text::unescaped(text).unwrap());
    assert!(lines(&script.bytes).eq(shown), "{}", script.name);
    let newline = if script.bytes.last().is_none_or(|&byte| byte == b'\n') {
        "yes"
    } else {
        "no"
    };
    assert_eq!(data.named("newline"), newline, "{}", script.name);
}

#[test]
fn every_script_as_it_was_played() {
    for script in scripts() {
        let page = page_of(&script.bytes);
        let data = Data::of(&page);
        let count = lines(&script.bytes).count();
        assert_eq!(data.named("lines"), format!("1 {count} {count}"));
        assert_eq!(data.lines.len(), count);
        bytes_agree(&script, &data);
        states_agree(&script, &data);
        reports_agree(&script, &data);
        reasons_agree(&script, &data);
    }
}

#[test]
fn the_sizes_of_the_map() {
    let page = page_of(b"");
    let data = Data::of(&page);
    assert_eq!(data.named("words"), judge::memory::SIZE.to_string());
    let sizes = format!(
        "frames={FRAMES} swap={SWAP_PAGES} page={PAGE_PLACES} groups={GROUPS} places={QUEUE_PLACES} \
         message={MESSAGE_WORDS} ticks={TIMEOUT}"
    );
    assert_eq!(data.named("map"), sizes);
}

/// A part of a script is played behind what came before, and has the reasons of the whole.
#[test]
fn a_part_of_a_script() {
    let script = whole_case();
    let all = page_of(&script);
    let all = Data::of(&all);
    for (first, last) in [(1, 13), (1, 1), (6, 6), (6, 13), (13, 13), (2, 12)] {
        let (from, to) = (first.to_string(), last.to_string());
        let page = written(&replay(&["--to", &to, "--from", &from], &script));
        let data = Data::of(&page);
        assert_eq!(data.named("lines"), format!("{first} {last} 13"));
        assert_eq!(data.lines, all.lines[first - 1..last]);
        let mut memory = all.start();
        for [_, _, _, changes, _] in &all.lines[..first - 1] {
            put(&mut memory, changes);
        }
        assert_eq!(data.start(), memory);
    }
}

/// A run on a node that was there goes on where that one stood, and has no reasons.
#[test]
fn on_a_node() {
    let script = whole_case();
    let lines: Vec<&[u8]> = script.split_inclusive(|&byte| byte == b'\n').collect();
    let all = page_of(&script);
    let all = Data::of(&all);
    let mut memory = all.start();
    for [_, _, _, changes, _] in &all.lines[..5] {
        put(&mut memory, changes);
    }
    let node = crate::support::file("on-a-node");
    let mut bytes: Vec<u8> = memory.iter().flat_map(|word| word.to_le_bytes()).collect();
    bytes.extend(b"what stands behind a node is not read");
    bytes.truncate(bytes.len() / 4 * 4);
    std::fs::write(&node, &bytes).unwrap();
    let page = written(&replay(
        &["--on", node.to_str().unwrap()],
        &lines[5..].concat(),
    ));
    let data = Data::of(&page);
    assert_eq!(
        (data.named("begin"), data.named("memory")),
        ("node", "8104")
    );
    assert_eq!(data.start(), memory);
    for (place, (line, whole)) in data.lines.iter().zip(&all.lines[5..]).enumerate() {
        assert_eq!(line[0], (place + 1).to_string());
        assert_eq!(line[1..4], whole[1..4]);
        assert_eq!(line[4], "");
    }
    assert_eq!(std::fs::read(&node).unwrap(), bytes);
}
