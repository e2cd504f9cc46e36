//! What is drawn: fixed by the seed, and every edge met.

use std::collections::{BTreeSet, HashSet};

use judge::memory::{words_of, SIZE};
use judge::node::Operation;
use judge::script::node_after;
use trials::asked::{taken_apart, Asked, EDGES};
use trials::calls::Proved;
use trials::comparison::compare;
use trials::memories::{Memories, Trial};
use trials::table::Table;

fn drawn(seed: u64, count: usize) -> Vec<Trial> {
    Memories::new(seed).take(count).collect()
}

#[test]
fn a_seed_fixes_the_memories() {
    assert_eq!(drawn(1, 100), drawn(1, 100));
    assert_ne!(drawn(1, 100), drawn(2, 100));
}

/// Each operation with its numbers, by a letter and by a line, at each edge.
#[test]
fn each_edge_is_asked_for() {
    let mut met = HashSet::new();
    let mut forced = HashSet::new();
    let mut words = BTreeSet::new();
    for trial in Memories::new(1).take(20_000) {
        let by_line = matches!(trial.asked, Asked::Line(_));
        let Some(operation) = trial.asked.operation() else {
            continue;
        };
        let (letter, numbers) = taken_apart(&operation);
        if let Operation::BeginAtomic { force } = operation {
            forced.insert((by_line, force));
        }
        if letter == b'A' {
            words.insert((by_line, numbers.len() - 1));
        }
        if let Some(&first) = numbers.first() {
            met.insert((by_line, letter, first));
        }
    }
    for by_line in [false, true] {
        for letter in *b"AISTEPL" {
            for edge in EDGES {
                assert!(met.contains(&(by_line, letter, edge)), "{letter} {edge}");
            }
        }
        assert!((0..=9).all(|count| words.contains(&(by_line, count))));
        assert!([false, true].map(|force| forced.contains(&(by_line, force))) == [true, true]);
    }
}

#[test]
fn letters_and_counts_of_no_operation_are_asked_for() {
    let mut letters = HashSet::new();
    let mut counts = HashSet::new();
    let mut fields = HashSet::new();
    for trial in Memories::new(1).take(20_000) {
        let unknown = trial.asked.operation() == Some(Operation::Unknown);
        if let Asked::Step(letter, numbers) = trial.asked {
            if let (true, b'B', &[field]) = (unknown, letter, &numbers[..]) {
                fields.insert(field);
            }
            if unknown && b"AOISTMEDBNPLC".contains(&letter) {
                counts.insert((letter, numbers.len()));
            } else if unknown {
                letters.insert(letter);
            }
        }
    }
    assert!(letters.len() > 200, "{}", letters.len());
    for letter in *b"OISTMEDBNPLC" {
        assert!(counts.contains(&(letter, 2)), "{letter}");
    }
    assert!(counts.contains(&(b'A', 0)));
    // B takes one number, but 0 and 1 alone.
    assert!(EDGES[2..].iter().all(|field| fields.contains(field)));
    assert!((2..=9).all(|field| fields.contains(&field)));
    assert!(!fields.contains(&0) && !fields.contains(&1));
}

#[test]
fn memories_are_too_short_exact_and_longer() {
    let lengths: HashSet<_> = drawn(1, 500)
        .iter()
        .map(|trial| trial.memory.len().cmp(&SIZE))
        .collect();
    assert_eq!(lengths.len(), 3);
}

/// A letter of an operation is read back as it, so that a step by it is the judge's.
#[test]
fn an_operation_is_asked_for_by_its_letter() {
    for trial in Memories::new(1).take(2_000) {
        if let Some(operation) = trial.asked.operation() {
            let (letter, numbers) = taken_apart(&operation);
            let asked = Asked::Step(letter, numbers);
            assert_eq!(asked.operation(), Some(operation));
        }
    }
}

/// A memory that is asked for M.
fn asked_for_length(memory: Vec<u32>) -> Trial {
    Trial {
        memory,
        asked: Asked::Step(b'M', vec![]),
        report_length: 16,
        head_length: 2,
        paging_length: 2,
    }
}

#[test]
fn a_table_knows_what_it_has_not_met() {
    let mut table = Table::default();
    let all = 33 + 8 + 3 + 3 + 29 + 17 + 4 + 3 + 3 + 6 + 7 + 6 + 6;
    assert_eq!(table.not_met().len(), all);
    let trial = asked_for_length(vec![]);
    let met = compare(&Proved, &trial).expect("no difference");
    table.add(&trial, &met);
    let missing = table.not_met();
    assert_eq!(missing.len(), all - 5);
    for met in [
        "clause \"memory too short\"",
        "head none",
        "pages counted none",
        "step M",
        "answer 1",
    ] {
        assert!(!missing.contains(&met.to_string()), "{met}");
    }
    assert!(missing.contains(&"line M".to_string()));

    while table.memories() < 99_999 {
        table.add(&trial, &met);
    }
    assert!(table.missing().is_empty());
    table.add(&trial, &met);
    assert_eq!(table.missing(), missing);
}

/// The stray words that a table has not met.
fn strays_not_met(table: &Table) -> BTreeSet<String> {
    let missing = table.not_met().into_iter();
    missing
        .filter(|name| name.starts_with("kept lengths ") || name.starts_with("words "))
        .collect()
}

/// In frame 0 the first place is used up, and a message waits in the second.
#[test]
fn a_stray_word_is_counted_by_where_it_stands() {
    let node = words_of(&node_after(b"A,1,7\nA,1,8\nS,1\nD\n"));
    for (at, name) in [
        (1164, "kept lengths in free frames"),
        (1172, "words in free frames"),
        (3396, "kept lengths in free swap pages"),
        (3397, "words in free swap pages"),
        (1092, "kept lengths in used-up places"),
        (1100, "words in used-up places"),
        (1110, "kept lengths behind last messages"),
        (1111, "words behind last messages"),
    ] {
        let mut memory = node.clone();
        memory[at] = 1;
        let trial = asked_for_length(memory);
        let met = compare(&Proved, &trial).expect("no difference");
        let mut table = Table::default();
        let mut missing = strays_not_met(&table);
        table.add(&trial, &met);
        assert!(missing.remove(name), "{name}");
        assert_eq!(strays_not_met(&table), missing, "word {at}");
    }
}
