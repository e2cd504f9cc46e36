//! Where a page differs from what its run comes to, in words.

use crate::data;
use crate::page::{Part, ROWS, RUN};
use crate::run::Run;
use crate::text::escaped;

/// How much of what differs is told.
const TOLD: usize = 60;

/// The first difference of a part of the page.
pub fn told(part: &Part, expected: &str, has: &str, run: &Run) -> String {
    let (place, expected_line, has_line) = first(expected, has, '\n');
    if *part == ROWS {
        return of_rows(place, run);
    }
    let row = place.checked_sub(data::HEAD).filter(|_| *part == RUN);
    match row.and_then(|row| line_at(row, run)) {
        Some(number) => format!("line {number}: {}", of_fields(expected_line, has_line)),
        None => of(part.name, expected_line, has_line),
    }
}

/// Two lines of a run by their fields, and what changed by the words that are neighbours.
fn of_fields(expected: &str, has: &str) -> String {
    let (place, expected, has) = first(expected, has, '|');
    match data::FIELDS.get(place) {
        Some(&data::CHANGE) => {
            let (_, expected, has) = first(expected, has, ' ');
            of(data::CHANGE, expected, has)
        }
        Some(field) => of(field, expected, has),
        None => "it has more fields than it should".to_string(),
    }
}

fn of_rows(place: usize, run: &Run) -> String {
    match line_at(place, run) {
        Some(number) => format!("line {number}: its row of the listing is not what the run says"),
        None => "the listing has more rows than the run has lines".to_string(),
    }
}

/// The number of the line that stands at a place among those shown.
fn line_at(place: usize, run: &Run) -> Option<u64> {
    (place < run.lines.len()).then(|| run.head.first + place as u64)
}

/// The first place at which two texts differ, parted so, and what each has there, if anything.
fn first<'a>(one: &'a str, other: &'a str, parted: char) -> (usize, &'a str, &'a str) {
    let pairs = one.split(parted).zip(other.split(parted));
    let place = pairs.take_while(|(one, other)| one == other).count();
    let at = |text: &'a str| text.split(parted).nth(place).unwrap_or_default();
    (place, at(one), at(other))
}

fn of(what: &str, expected: &str, has: &str) -> String {
    let (expected, has) = (shown(expected), shown(has));
    format!("the {what} is {expected} and the page has {has}")
}

/// A text in a message.
fn shown(text: &str) -> String {
    let mut text = escaped(text.as_bytes(), b"");
    if text.is_empty() {
        return "nothing".to_string();
    }
    if text.len() > TOLD {
        text.truncate(TOLD);
        text += "…";
    }
    text
}
