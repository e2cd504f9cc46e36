//! What a memory is asked: power-on, or a step by a letter or by a line.

use std::fmt::{self, Display, Formatter};

use judge::generator::Flavour;
use judge::memory;
use judge::node::{Operation, Report};
use judge::random::Random;
use judge::script;

/// Numbers at the edges of what some operation or the memory has bounds for.
pub const EDGES: [u32; 11] = [0, 1, 8, 9, 63, 64, 255, 256, 65_535, 65_536, u32::MAX];
/// More numbers than a line has room for.
const MANY: usize = 80;
/// One more than a message has.
const MOST_WORDS: u64 = 9;

#[derive(Clone, Debug, PartialEq, Eq)]
pub enum Asked {
    PowerOn,
    Step(u8, Vec<u32>),
    Line(Vec<u8>),
}

impl Asked {
    pub fn any(random: &mut Random) -> Self {
        match random.between(1, 16) {
            1 => Asked::PowerOn,
            2..=9 => any_step(random),
            10..=13 => any_step(random).as_line(random.one_in(8)),
            _ => any_line(random),
        }
    }

    /// The operation that the judge reads in it; none for power-on.
    pub fn operation(&self) -> Option<Operation> {
        match self {
            Asked::PowerOn => None,
            Asked::Step(letter, numbers) => {
                Some(script::operation(&[*letter], numbers).unwrap_or(Operation::Unknown))
            }
            Asked::Line(text) => Some(script::read(text)),
        }
    }

    /// The judge's report, and its change of the memory.
    pub fn judged(&self, memory: &mut [u32]) -> Report {
        match self.operation() {
            Some(operation) => memory::step(memory, &operation),
            None => Report {
                answer: memory::power_on(memory),
                ..Report::default()
            },
        }
    }

    /// A step as the line that asks for it, its numbers with leading zeros or without.
    fn as_line(&self, zeros: bool) -> Self {
        let Asked::Step(letter, numbers) = self else {
            return self.clone();
        };
        let mut text = vec![*letter];
        for number in numbers {
            let field = if zeros {
                format!(",{number:010}")
            } else {
                format!(",{number}")
            };
            text.extend(field.bytes());
        }
        Asked::Line(text)
    }
}

impl Display for Asked {
    fn fmt(&self, f: &mut Formatter) -> fmt::Result {
        match self {
            Asked::PowerOn => write!(f, "power-on"),
            Asked::Step(letter, numbers) => {
                write!(f, "step '{}' {numbers:?}", letter.escape_ascii())
            }
            Asked::Line(text) => write!(f, "line \"{}\"", text.escape_ascii()),
        }
    }
}

/// The letter and numbers that ask for an operation; for an unknown one a letter of none.
pub fn taken_apart(operation: &Operation) -> (u8, Vec<u32>) {
    match *operation {
        Operation::Arrival { group, ref words } => (b'A', [&[group], words.as_slice()].concat()),
        Operation::Preempt => (b'O', vec![]),
        Operation::Dispatch { group } => (b'I', vec![group]),
        Operation::Switch { group } => (b'S', vec![group]),
        Operation::Ticks { count } => (b'T', vec![count]),
        Operation::MessageLength => (b'M', vec![]),
        Operation::MessageWord { index } => (b'E', vec![index]),
        Operation::Dispose => (b'D', vec![]),
        Operation::BeginAtomic { force: false } => (b'B', vec![]),
        Operation::BeginAtomic { force: true } => (b'B', vec![1]),
        Operation::EndAtomic => (b'N', vec![]),
        Operation::Describe { word } => (b'P', vec![word]),
        Operation::Launch { node } => (b'L', vec![node]),
        Operation::Turn => (b'C', vec![]),
        Operation::Unknown => (b'?', vec![]),
    }
}

/// A step of some letter, most often of an operation and with its count of numbers.
fn any_step(random: &mut Random) -> Asked {
    let letter = random.pick(b"AOISTMEDBNPLC");
    match random.between(1, 16) {
        1 => Asked::Step(random.draw() as u8, any_numbers(random)),
        2 | 3 => Asked::Step(letter, any_numbers(random)),
        _ => Asked::Step(letter, fitting_numbers(random, letter)),
    }
}

fn fitting_numbers(random: &mut Random, letter: u8) -> Vec<u32> {
    match letter {
        b'A' => {
            let words = random.between(0, MOST_WORDS);
            let group = within_or_any(random, 8);
            let words = (0..words).map(|_| any_number(random));
            std::iter::once(group).chain(words).collect()
        }
        b'I' | b'S' | b'E' => vec![within_or_any(random, 8)],
        b'T' => vec![within_or_any(random, 300)],
        b'L' => vec![within_or_any(random, 64)],
        b'P' => vec![any_number(random)],
        b'B' => match random.between(1, 4) {
            1 => vec![],
            2 => vec![any_number(random)],
            _ => vec![random.between(0, 1) as u32],
        },
        _ => vec![],
    }
}

fn any_numbers(random: &mut Random) -> Vec<u32> {
    let count = if random.one_in(16) {
        MANY
    } else {
        random.between(0, MOST_WORDS + 2) as usize
    };
    (0..count).map(|_| any_number(random)).collect()
}

fn within_or_any(random: &mut Random, most: u64) -> u32 {
    if random.one_in(2) {
        return any_number(random);
    }
    random.between(0, most) as u32
}

fn any_number(random: &mut Random) -> u32 {
    match random.between(1, 4) {
        1 => random.between(0, 9) as u32,
        2 => random.draw() as u32,
        _ => random.pick(&EDGES),
    }
}

/// A line as scripts have them, a bad one as often as not.
fn any_line(random: &mut Random) -> Asked {
    let name = random.pick(&["uniform", "bad"]);
    let flavour = Flavour::named(name).expect("a flavour of this name");
    let mut text = flavour.script(random.draw(), 1);
    if text.last() == Some(&b'\n') {
        text.pop();
    }
    Asked::Line(text)
}
