//! What a node holds, one fact a line, in words that know no memory map; and where two nodes differ.
//!
//! The lines: `running`, `timer`, the hardware queue's messages from the head on, the free line from
//! the front on, the order of entry, the swap line from the front on, the counts of pages sent out
//! and brought in, the groups, and every place of a page that is not 0 throughout. A page stands with
//! the letter of where it is, f for a frame and s for a swap page.

use std::io::{self, Write};

use crate::node::{Group, Message, Node, Place, FRAMES, MESSAGE_WORDS, QUEUE_PLACES};

/// A line: what it tells of, how it begins, and its facts, each with its name.
struct Line {
    of: String,
    /// As what it tells of; but the place of a queued message is left to the order of the lines.
    begin: String,
    facts: Vec<(&'static str, Value)>,
}

#[derive(PartialEq, Eq)]
enum Value {
    Number(u32),
    List(Vec<String>),
    /// What waits at a place. Where nothing does, there is no line.
    Message(Option<String>),
}

impl Line {
    fn new(of: &str, facts: Vec<(&'static str, Value)>) -> Self {
        let (of, begin) = (of.to_string(), of.to_string());
        Line { of, begin, facts }
    }

    fn of_number(name: &'static str, number: u32) -> Self {
        Line::new("", vec![(name, Value::Number(number))])
    }

    fn of_list<T: ToString>(name: &'static str, list: impl IntoIterator<Item = T>) -> Self {
        Line::new("", vec![(name, Value::list(list))])
    }

    fn text(&self) -> Option<String> {
        let mut text = self.begin.clone();
        for (name, value) in &self.facts {
            text = joined([&text, *name, &value.text()?]);
        }
        Some(text)
    }
}

impl Value {
    fn list<T: ToString>(list: impl IntoIterator<Item = T>) -> Self {
        Value::List(list.into_iter().map(|value| value.to_string()).collect())
    }

    fn text(&self) -> Option<String> {
        match self {
            Value::Number(number) => Some(number.to_string()),
            Value::List(list) => Some(list.join(" ")),
            Value::Message(message) => message.clone(),
        }
    }
}

/// With a blank between them; what is empty is left out.
fn joined<'a>(words: impl IntoIterator<Item = &'a str>) -> String {
    let words = words.into_iter().filter(|word| !word.is_empty());
    words.collect::<Vec<&str>>().join(" ")
}

/// All lines that a node can have, those of any two nodes of the same things one by one.
fn lines(node: &Node) -> impl Iterator<Item = Line> + '_ {
    let first = [
        Line::of_number("running", node.running as u32),
        Line::of_number("timer", node.timer),
    ];
    let queued = (0..QUEUE_PLACES).map(|place| queued(place, node.queue.get(place)));
    let swap_free = node.swap_free.iter().map(|page| page - FRAMES);
    let paging = [("out", node.sent_out), ("in", node.brought_in)];
    let paging = paging.map(|(name, count)| (name, Value::Number(count)));
    let between = [
        Line::of_list("free", &node.free),
        Line::of_list("entry", &node.entry),
        Line::of_list("swap-free", swap_free),
        Line::new("", paging.into()),
    ];
    let groups = (1..).zip(&node.groups);
    let groups = groups.map(|(number, group)| Line::new(&format!("group {number}"), facts(group)));
    let places = node.pages.iter().enumerate().flat_map(|(page, places)| {
        let places = places.iter().enumerate();
        places.map(move |(at, place)| kept(&format!("{} place {at}", page_name(page)), place))
    });
    let lines = first.into_iter().chain(queued).chain(between);
    lines.chain(groups).chain(places)
}

/// A queued message is told with all the words that it has room for.
fn queued(place: usize, message: Option<&Message>) -> Line {
    let told = message.map(|message| {
        let mut words = [0; MESSAGE_WORDS];
        words[..message.words.len()].copy_from_slice(&message.words);
        format!("{} words{}", message.group, numbers(&words))
    });
    Line {
        begin: "queued".to_string(),
        ..Line::new(
            &format!("queued place {place}"),
            vec![("", Value::Message(told))],
        )
    }
}

fn kept(of: &str, place: &Place) -> Line {
    let waits = *place != Place::default();
    let told = waits.then(|| format!("length {} words{}", place.length, numbers(&place.words)));
    Line::new(of, vec![("", Value::Message(told))])
}

/// Each with a blank before it.
fn numbers(words: &[u32]) -> String {
    words.iter().map(|word| format!(" {word}")).collect()
}

fn facts(group: &Group) -> Vec<(&'static str, Value)> {
    let numbers = [
        ("atomic", group.atomic.into()),
        ("pending", group.pending.into()),
        ("force", group.force.into()),
        ("revoked", group.revoked.into()),
        ("h", group.buffer.used_up as u32),
        ("n", group.buffer.messages as u32),
    ];
    let numbers = numbers.map(|(name, number)| (name, Value::Number(number)));
    let pages = group.buffer.pages.iter().map(|&page| page_name(page));
    let lists = [
        ("pages", Value::list(pages)),
        ("descriptor", Value::list(&group.descriptor)),
    ];
    numbers.into_iter().chain(lists).collect()
}

/// The letter of where a page is, and its number there.
fn page_name(page: usize) -> String {
    match page.checked_sub(FRAMES) {
        None => format!("f{page}"),
        Some(swap) => format!("s{swap}"),
    }
}

/// Writes what a node holds.
pub fn write(node: &Node, output: &mut impl Write) -> io::Result<()> {
    let mut texts = lines(node).filter_map(|line| line.text());
    texts.try_for_each(|text| writeln!(output, "{text}"))
}

/// What a node holds, as text.
pub fn text(node: &Node) -> String {
    let mut output = Vec::new();
    write(node, &mut output).expect("memory is written without error");
    String::from_utf8(output).expect("a state is text")
}

/// Each fact that two nodes differ in: its name, what it is in the one, and in the other.
pub fn differences(one: &Node, two: &Node) -> Vec<String> {
    let lines = lines(one).zip(lines(two));
    let facts = lines.flat_map(|(one, two)| {
        let of = one.of;
        let facts = one.facts.into_iter().zip(two.facts);
        facts.map(move |((name, one), (_, two))| (joined([of.as_str(), name]), one, two))
    });
    let differing = facts.filter(|(_, one, two)| one != two);
    differing
        .map(|(name, one, two)| difference(&name, &one, &two))
        .collect()
}

/// Lists are told from the first place that differs to the last.
fn difference(name: &str, one: &Value, two: &Value) -> String {
    let (Value::List(one), Value::List(two)) = (one, two) else {
        let told = |value: &Value| value.text().unwrap_or_else(|| NOTHING.to_string());
        return format!("{name}: {}, {}", told(one), told(two));
    };
    let alike = |(one, two): &(&String, &String)| one == two;
    let before = one.iter().zip(two).take_while(alike).count();
    let (one, two) = (&one[before..], &two[before..]);
    let behind = one.iter().rev().zip(two.iter().rev());
    let behind = behind.take_while(alike).count();
    let told = |list: &[String]| match &list[..list.len() - behind] {
        [] => NOTHING.to_string(),
        differing => differing.join(" "),
    };
    format!("{name} from place {before}: {}, {}", told(one), told(two))
}

/// What a difference says of a place without a message, and of a list that goes no further.
const NOTHING: &str = "none";
