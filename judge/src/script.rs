//! The paper's "The script and its listing".

use std::fmt::{self, Display, Formatter};
use std::io::{self, BufRead, Read, Write};

use crate::node::{Node, Operation, Report};

/// "A line over 128 bytes, the newline not counted, .. is unreadable."
pub const LONGEST_LINE: usize = 128;
/// "Numbers have 1 to 10 decimal digits."
const MOST_DIGITS: usize = 10;
/// What some editors put before the first line: in UTF-8, and in UTF-16 with the low byte first or last.
pub const BYTE_ORDER_MARKS: [&[u8]; 3] = [b"\xef\xbb\xbf", b"\xff\xfe", b"\xfe\xff"];

pub const HEADER: &str = "line,answer,value,trap,upcall,moved";

/// Why a line can't be read, in the words of docs/LISTING.md.
#[derive(Clone, Copy, Debug, PartialEq, Eq)]
pub enum Unreadable {
    Empty,
    TooLong,
    ByteOrderMark,
    CarriageReturn,
    Blank,
    Nul,
    SmallLetter,
    NoOperation,
    NoGroup,
    TooFewFields,
    TooManyFields,
    NoForce,
    EmptyField,
    Sign,
    Digits(usize),
    TooLarge,
    BadNumber,
}

impl Display for Unreadable {
    fn fmt(&self, f: &mut Formatter) -> fmt::Result {
        f.write_str(match self {
            Unreadable::Empty => "an empty line",
            Unreadable::TooLong => "too long",
            Unreadable::ByteOrderMark => "a byte order mark",
            Unreadable::CarriageReturn => "a carriage return",
            Unreadable::Blank => "a blank",
            Unreadable::Nul => "a NUL",
            Unreadable::SmallLetter => "the operations are capital letters",
            Unreadable::NoOperation => "no such operation",
            Unreadable::NoGroup => "the group is missing",
            Unreadable::TooFewFields => "too few fields",
            Unreadable::TooManyFields => "too many fields",
            Unreadable::NoForce => "B's number is neither 0 nor 1",
            Unreadable::EmptyField => "an empty field",
            Unreadable::Sign => "a sign",
            Unreadable::Digits(count) => return write!(f, "{count} digits"),
            Unreadable::TooLarge => "above 4,294,967,295",
            Unreadable::BadNumber => "a bad number",
        })
    }
}

/// Why a line can't be read, and in which of its fields, from 1 on; none where it is the line as a whole.
#[derive(Clone, Copy, Debug, PartialEq, Eq)]
pub struct Refused {
    pub field: Option<usize>,
    pub why: Unreadable,
}

/// The operation that a line, its newline taken off, asks for.
pub fn read(line: &[u8]) -> Operation {
    readable(line).unwrap_or(Operation::Unknown)
}

/// The same, or why it asks for none.
pub fn readable(line: &[u8]) -> Result<Operation, Refused> {
    let whole = |why| Refused { field: None, why };
    if line.is_empty() {
        return Err(whole(Unreadable::Empty));
    }
    if line.len() > LONGEST_LINE {
        return Err(whole(Unreadable::TooLong));
    }
    let mut fields = (1..).zip(line.split(|&byte| byte == b','));
    let (_, letter) = fields.next().expect("the first of one or more");
    let numbers = fields.map(|(field, text)| {
        let field = Some(field);
        number(text).map_err(|why| Refused { field, why })
    });
    let numbers = numbers.collect::<Result<Vec<u32>, Refused>>();
    let asked = numbers.and_then(|numbers| {
        operation(letter, &numbers).ok_or_else(|| whole(misfit(letter, &numbers)))
    });
    // A wrong letter comes before whatever else is wrong.
    let first = |why| Refused {
        field: Some(1),
        why,
    };
    asked.map_err(|refused| wrong_letter(letter).map_or(refused, first))
}

/// "no sign, at most 4,294,967,295; leading zeros are read"
pub fn number(field: &[u8]) -> Result<u32, Unreadable> {
    if !(1..=MOST_DIGITS).contains(&field.len()) || !field.iter().all(u8::is_ascii_digit) {
        return Err(bad_number(field));
    }
    let value = field
        .iter()
        .fold(0, |value, digit| 10 * value + u64::from(digit - b'0'));
    u32::try_from(value).map_err(|_| Unreadable::TooLarge)
}

/// Why a field is no number that has its 1 to 10 digits and no more.
fn bad_number(field: &[u8]) -> Unreadable {
    let digits = |field: &[u8]| !field.is_empty() && field.iter().all(u8::is_ascii_digit);
    match field {
        [] => Unreadable::EmptyField,
        [b'+' | b'-', unsigned @ ..] if digits(unsigned) => Unreadable::Sign,
        _ if digits(field) => Unreadable::Digits(field.len()),
        _ => stray_byte(field).unwrap_or(Unreadable::BadNumber),
    }
}

/// The first byte of a field that the eye doesn't see, if it has one.
fn stray_byte(field: &[u8]) -> Option<Unreadable> {
    field.iter().find_map(|byte| match byte {
        b'\r' => Some(Unreadable::CarriageReturn),
        b' ' => Some(Unreadable::Blank),
        0 => Some(Unreadable::Nul),
        _ => None,
    })
}

/// Why a first field names no operation; none where it names one.
fn wrong_letter(letter: &[u8]) -> Option<Unreadable> {
    if is_operation(letter) {
        return None;
    }
    if BYTE_ORDER_MARKS.iter().any(|mark| letter.starts_with(mark)) {
        return Some(Unreadable::ByteOrderMark);
    }
    let stray = stray_byte(letter);
    let small = is_operation(&letter.to_ascii_uppercase()).then_some(Unreadable::SmallLetter);
    stray.or(small).or(Some(Unreadable::NoOperation))
}

/// Whether there is an operation of this letter: each is satisfied by no number or by one.
fn is_operation(letter: &[u8]) -> bool {
    operation(letter, &[]).is_some() || operation(letter, &[0]).is_some()
}

/// Why an operation can't be asked for with these numbers.
fn misfit(letter: &[u8], numbers: &[u32]) -> Unreadable {
    match (letter, numbers) {
        (b"A", []) => Unreadable::NoGroup,
        (b"B", [_]) => Unreadable::NoForce,
        (_, []) => Unreadable::TooFewFields,
        _ => Unreadable::TooManyFields,
    }
}

/// The letters of the paper's table, each with its count of fields; "for A, any count of words is
/// read". B has none or one, and of that order 2 says "any other field on B is 2".
pub fn operation(letter: &[u8], numbers: &[u32]) -> Option<Operation> {
    Some(match (letter, numbers) {
        (b"A", &[group, ref words @ ..]) => Operation::Arrival {
            group,
            words: words.to_vec(),
        },
        (b"O", []) => Operation::Preempt,
        (b"I", &[group]) => Operation::Dispatch { group },
        (b"S", &[group]) => Operation::Switch { group },
        (b"T", &[count]) => Operation::Ticks { count },
        (b"M", []) => Operation::MessageLength,
        (b"E", &[index]) => Operation::MessageWord { index },
        (b"D", []) => Operation::Dispose,
        (b"B", [] | [0]) => Operation::BeginAtomic { force: false },
        (b"B", [1]) => Operation::BeginAtomic { force: true },
        (b"N", []) => Operation::EndAtomic,
        (b"P", &[word]) => Operation::Describe { word },
        (b"L", &[node]) => Operation::Launch { node },
        (b"C", []) => Operation::Turn,
        _ => return None,
    })
}

/// Runs a script from power-on and hands each line, kept to its first 129 bytes, on with its
/// report. Hands back the node after the last line.
pub fn run<E: From<io::Error>>(
    mut input: impl BufRead,
    mut each: impl FnMut(&[u8], &Report) -> Result<(), E>,
) -> Result<Node, E> {
    let mut node = Node::power_on();
    let mut line = Vec::new();
    while next_line(&mut input, &mut line)? {
        let report = node.step(&read(&line));
        each(&line, &report)?;
    }
    Ok(node)
}

/// A line as it can be shown; of an over-long one the first bytes.
pub fn shown(line: &[u8]) -> String {
    match line.get(..LONGEST_LINE) {
        Some(first) if first != line => format!("{}..", first.escape_ascii()),
        _ => line.escape_ascii().to_string(),
    }
}

/// Takes the next line without its newline; false at the end of the input. Of an over-long line
/// only so much is kept as shows that it is one.
pub fn next_line(input: &mut impl BufRead, line: &mut Vec<u8>) -> io::Result<bool> {
    line.clear();
    let kept = LONGEST_LINE + 1;
    let taken = input.by_ref().take(kept as u64).read_until(b'\n', line)?;
    if line.last() == Some(&b'\n') {
        line.pop();
    } else if taken == kept {
        input.skip_until(b'\n')?;
    }
    Ok(taken > 0)
}

/// Writes the listing of a script.
pub fn write_listing(input: impl BufRead, output: &mut impl Write) -> io::Result<()> {
    writeln!(output, "{HEADER}")?;
    let mut number = 0_u64;
    run(input, |_, report| {
        number += 1;
        write_report(output, number, report)
    })?;
    Ok(())
}

/// "line number from 1, answer (0 accepted), value, trap, upcall group or 0, moved; an accepted L
/// adds node, group, words"
pub fn write_report(output: &mut impl Write, number: u64, report: &Report) -> io::Result<()> {
    let (answer, value, trap) = (report.answer, report.value, report.trap as u32);
    let (upcall, moved) = (report.upcall, report.moved);
    write!(output, "{number},{answer},{value},{trap},{upcall},{moved}")?;
    if let Some(launched) = &report.launched {
        write!(output, ",{},{}", launched.node, launched.group)?;
        for word in &launched.words {
            write!(output, ",{word}")?;
        }
    }
    writeln!(output)
}

/// The listing of a script held whole.
pub fn listing(script: &[u8]) -> Vec<u8> {
    let mut output = Vec::new();
    write_listing(script, &mut output).expect("memory reads and writes without error");
    output
}

/// The node after a script held whole.
pub fn node_after(script: &[u8]) -> Node {
    run(script, |_, _| Ok::<(), io::Error>(())).expect("memory is read without error")
}
