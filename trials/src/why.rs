//! Why messages of random scripts were buffered: every line of each script is asked for, the answers of
//! the proved call are held against the judge's, and what they are is counted.

use std::fmt::{self, Display, Formatter};

use fugu::{calls, SIZE, WHY};
use judge::generator::FLAVOURS;
use judge::random::Random;
use judge::why::{answers, Answer, Reason, Refused, Why};

/// The lines of a script: each is asked for by a run of all of them.
const LINES: u64 = 150;
/// So many scripts, ten of each flavour, are held to meet everything; half of it is enough for most seeds.
const ENOUGH: u64 = 140;

/// An answer in words: 0, the reason, and the low and high bits of its line; or the refusal and zeros.
pub type Told = [u32; WHY];

/// What is asked why.
pub trait Reasons {
    fn why(&self, script: &[u8], line: u32) -> Told;
}

/// The proved library, asked for one line alone.
pub struct Proved;

impl Reasons for Proved {
    fn why(&self, script: &[u8], line: u32) -> Told {
        let mut told = [0; WHY];
        let written = calls::why(&mut vec![0; SIZE], script, line, &mut told);
        assert_eq!(
            written as usize, WHY,
            "the memory and the part are long enough"
        );
        told
    }
}

/// The judge's answer in words.
pub fn told(answer: Answer) -> Told {
    match answer {
        Ok(Why { reason, line }) => [0, reason as u32, line as u32, (line >> 32) as u32],
        Err(refused) => [refused as u32, 0, 0, 0],
    }
}

/// What an answer is, and how it came about where there are several ways.
#[derive(Clone, Copy, Debug, PartialEq, Eq)]
enum Kind {
    Disposed,
    Queued,
    /// Reason 3, by the line that moved it.
    NotRunningAtArrival,
    NotRunningAtDisposal,
    NotRunningAtTake,
    Older,
    Revoked,
    /// Reason 6, by whether it had been head.
    HeadTimedOut,
    OtherTimedOut,
    Taken,
    Unreadable,
    /// 17, by what is no accepted arrival.
    LineZero,
    PastLast,
    RefusedArrival,
    OtherOperation,
}

/// All kinds, in words.
const KINDS: [(Kind, &str); 15] = [
    (Kind::Disposed, "reason 1"),
    (Kind::Queued, "reason 2"),
    (Kind::NotRunningAtArrival, "reason 3 at its own line"),
    (Kind::NotRunningAtDisposal, "reason 3 at a D"),
    (Kind::NotRunningAtTake, "reason 3 at an O or S"),
    (Kind::Older, "reason 4"),
    (Kind::Revoked, "reason 5"),
    (Kind::HeadTimedOut, "reason 6 of a head"),
    (Kind::OtherTimedOut, "reason 6 of one behind a head"),
    (Kind::Taken, "reason 7"),
    (Kind::Unreadable, "refusal 2"),
    (Kind::LineZero, "refusal 17 of line 0"),
    (Kind::PastLast, "refusal 17 of the line past the last"),
    (Kind::RefusedArrival, "refusal 17 of a refused arrival"),
    (Kind::OtherOperation, "refusal 17 of another operation"),
];

/// A script with the judge's answers, from line 0 to the one past the last.
struct Judgement<'a> {
    lines: Vec<&'a [u8]>,
    answers: Vec<Answer>,
}

impl<'a> Judgement<'a> {
    fn new(script: &'a [u8]) -> Self {
        Judgement {
            lines: script.split_inclusive(|&byte| byte == b'\n').collect(),
            answers: answers(script),
        }
    }

    /// The letter of a line; none where it is not in the script.
    fn letter(&self, line: usize) -> Option<u8> {
        self.lines.get(line.checked_sub(1)?)?.first().copied()
    }

    fn kind(&self, line: usize) -> Kind {
        match self.answers[line] {
            Ok(why) => self.kind_of_reason(line, why),
            Err(Refused::Unreadable) => Kind::Unreadable,
            Err(Refused::NoArrival) => match self.letter(line) {
                None if line == 0 => Kind::LineZero,
                None => Kind::PastLast,
                Some(b'A') => Kind::RefusedArrival,
                Some(_) => Kind::OtherOperation,
            },
        }
    }

    fn kind_of_reason(&self, line: usize, why: Why) -> Kind {
        match why.reason {
            Reason::NeverBuffered => Kind::Disposed,
            Reason::StillQueued => Kind::Queued,
            Reason::NotRunning if why.line as usize == line => Kind::NotRunningAtArrival,
            Reason::NotRunning => match self.letter(why.line as usize) {
                Some(b'D') => Kind::NotRunningAtDisposal,
                Some(b'O' | b'S') => Kind::NotRunningAtTake,
                letter => unreachable!("a message became head and moved at {letter:?}"),
            },
            Reason::OlderWaiting => Kind::Older,
            Reason::Revoked => Kind::Revoked,
            Reason::Timeout if self.moves_before(line, why) => Kind::OtherTimedOut,
            Reason::Timeout => Kind::HeadTimedOut,
            Reason::ProcessorTaken => Kind::Taken,
        }
    }

    /// Whether the line that moved a message moved one that had come before it.
    fn moves_before(&self, line: usize, why: Why) -> bool {
        let mut before = self.answers[..line].iter().flatten();
        before.any(|earlier| earlier.line == why.line)
    }
}

/// How often each kind of answer was met.
#[derive(Default)]
pub struct Table {
    scripts: u64,
    kinds: [u64; KINDS.len()],
}

/// What so many scripts of a seed meet, of every flavour in turn, or the first difference. `each` is
/// handed the number of every script that there is none in, and the count.
pub fn table_of(
    reasons: &impl Reasons,
    count: u64,
    seed: u64,
    each: impl Fn(u64, u64),
) -> Result<Table, String> {
    let mut random = Random::new(seed);
    let mut table = Table::default();
    for (number, flavour) in (1..=count).zip(FLAVOURS.iter().cycle()) {
        let drawn = random.draw();
        let script = flavour.script(drawn, LINES);
        let added = table.add(reasons, &script);
        added.map_err(|difference| {
            let name = flavour.name;
            format!("script {number}, bin/scripts {drawn} {LINES} {name}: {difference}")
        })?;
        each(number, count);
    }
    Ok(table)
}

/// What is told of a line, where it is what the judge says, word for word.
fn agreed(
    reasons: &impl Reasons,
    script: &[u8],
    line: usize,
    answer: Answer,
) -> Result<Told, String> {
    let (judged, told) = (told(answer), reasons.why(script, line as u32));
    if told != judged {
        return Err(format!(
            "line {line}: answer, reason, line: judge {judged:?}, library {told:?}"
        ));
    }
    Ok(told)
}

/// What is told of each line of a script, of line 0 and of the one past the last, as a `.why` file of
/// `vectors/` has it; or the first difference.
pub fn rows(reasons: &impl Reasons, script: &[u8]) -> Result<String, String> {
    let answers = answers(script).into_iter().enumerate();
    let rows = answers.map(|(line, answer)| {
        let row = match agreed(reasons, script, line, answer)? {
            [0, reason, low, high] => {
                let at = u64::from(high) << 32 | u64::from(low);
                format!("{line} reason {reason} line {at}")
            }
            [refusal, ..] => format!("{line} refused {refusal}"),
        };
        Ok(row)
    });
    Ok(rows.collect::<Result<Vec<String>, String>>()?.join("\n"))
}

impl Table {
    /// Asks for each line of a script, for line 0 and for the one past the last.
    pub fn add(&mut self, reasons: &impl Reasons, script: &[u8]) -> Result<(), String> {
        let judgement = Judgement::new(script);
        for (line, &answer) in judgement.answers.iter().enumerate() {
            agreed(reasons, script, line, answer)?;
            let met = judgement.kind(line);
            let at = KINDS.iter().position(|(kind, _)| *kind == met);
            self.kinds[at.expect("all kinds")] += 1;
        }
        self.scripts += 1;
        Ok(())
    }

    fn counts(&self) -> impl Iterator<Item = (u64, &'static str)> + '_ {
        let kinds = KINDS.iter().zip(self.kinds);
        kinds.map(|((_, name), count)| (count, *name))
    }

    /// What was to be met and was not: few scripts need meet nothing.
    pub fn missing(&self) -> Vec<String> {
        if self.scripts < ENOUGH {
            return Vec::new();
        }
        self.not_met()
    }

    pub fn not_met(&self) -> Vec<String> {
        let not_met = self.counts().filter(|(count, _)| *count == 0);
        not_met.map(|(_, name)| name.to_string()).collect()
    }
}

impl Display for Table {
    fn fmt(&self, f: &mut Formatter) -> fmt::Result {
        let lines: u64 = self.kinds.iter().sum();
        write!(f, "{lines} lines asked for, of {} scripts:", self.scripts)?;
        let wide = 2 + lines.to_string().len();
        let mut counts = self.counts();
        counts.try_for_each(|(count, name)| write!(f, "\n{count:>wide$} {name}"))
    }
}
