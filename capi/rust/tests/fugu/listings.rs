//! Scripts played line by line: the reports are those of the listing beside each.

use std::fs;

use crate::support::{lines, listed, report, started, taken_apart};

/// Each line of a script by its bytes, and by its letter too where it can be taken apart, reports what the
/// row of the listing has.
fn reported(script: &[u8], listing: &str) {
    let mut node = started();
    let mut rows = listing.lines().skip(1);
    for (line, number) in lines(script).into_iter().zip(1..) {
        let row = rows.next().unwrap_or_default();
        let (listed, fields) = row.split_once(',').expect("a row");
        assert_eq!(listed, number.to_string());
        let expected = report(fields);
        let mut by_letter = node.clone();
        assert_eq!(node.line(line), expected, "line {number}");
        // A line that can't be read may still be taken apart: by a sign, or too many digits.
        if let Some((letter, numbers)) =
            taken_apart(line).filter(|_| expected.answer != fugu::answer::UNREADABLE)
        {
            assert_eq!(by_letter.step(letter, &numbers), expected, "line {number}");
            assert_eq!(by_letter, node, "line {number}");
        }
    }
    assert_eq!(rows.next(), None);
    assert!(node.test());
}

fn play(folder: &str) {
    for path in listed(folder) {
        println!("{}", path.display());
        let script = fs::read(&path).expect("the script is read");
        let listing = fs::read_to_string(path.with_extension("listing"));
        reported(&script, &listing.expect("the listing is text"));
    }
}

#[test]
fn examples() {
    play("examples");
}

#[test]
fn vectors() {
    play("vectors/base");
    play("vectors/order1");
    play("vectors/order2");
    play("vectors/order3");
    play("vectors/order4");
    play("vectors/order5");
    play("vectors/order6");
    play("vectors/order7");
}
