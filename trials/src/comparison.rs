//! One memory by the calls and by the judge.

use std::fmt::{self, Display, Formatter};
use std::ops::Range;

use fugu::{HEAD, PAGING, REPORT};
use judge::memory::{fault, head_part, paging, what_stands_at, Fault};
use judge::node::{Refusal, Report};

use crate::asked::Asked;
use crate::calls::Calls;
use crate::memories::Trial;

/// What stands in a part before a call: no number that a report is likely to have.
const BEFORE: u32 = 0xdead_beef;
/// Of words that differ so many are told.
const MOST_TOLD: usize = 8;
/// What the words are that a call tells, those of a message sent apart.
const HEAD_NAMES: [&str; HEAD] = ["index of the first word", "count of words"];
const PAGING_NAMES: [&str; PAGING] = ["pages sent out", "pages brought in"];
const REPORT_NAMES: [&str; 8] = [
    "answer",
    "value",
    "trap",
    "upcall",
    "moved",
    "node sent to",
    "group sent for",
    "count of words sent",
];

/// What a memory has met where the calls and the judge agree.
pub struct Met {
    /// Why it is no node.
    pub fault: Option<Fault>,
    pub head: Range<usize>,
    /// Pages sent out and brought in before the step.
    pub paging: [u32; 2],
    /// None where the part had no room for it.
    pub report: Option<Report>,
}

/// What the calls did otherwise than the judge, in words.
#[derive(Debug)]
pub struct Difference(String);

impl Display for Difference {
    fn fmt(&self, f: &mut Formatter) -> fmt::Result {
        f.write_str(&self.0)
    }
}

/// The test, the head message, its words by E and the counts of pages of a memory, then what it is
/// asked; all words of the parts and of the memory are held against the judge's.
pub fn compare(calls: &impl Calls, trial: &Trial) -> Result<Met, Difference> {
    let fault = fault(&trial.memory);
    let mut memory = trial.memory.clone();
    let verdict = [calls.test(&memory)];
    let judged = [u32::from(fault.is_none())];
    differing("fugu_test", &judged, &verdict, |_| "verdict".to_string())?;

    let head = head_part(&trial.memory);
    let judged = told(&[head.start as u32, head.len() as u32], trial.head_length);
    same_part("fugu_head", &judged, named(&HEAD_NAMES), |part| {
        calls.head(&memory, part)
    })?;
    same_words(calls, &head, &trial.memory, &mut memory)?;

    let paging = paging(&trial.memory);
    let judged = told(&paging, trial.paging_length);
    same_part("fugu_paging", &judged, named(&PAGING_NAMES), |part| {
        calls.paging(&memory, part)
    })?;

    let mut judged_memory = trial.memory.clone();
    // Without room for the report there is no step.
    let report = (trial.report_length >= REPORT).then(|| trial.asked.judged(&mut judged_memory));
    let words = report.as_ref().map_or([0; REPORT], report_words);
    let judged = told(&words, trial.report_length);
    same_step(calls, &trial.asked, &judged, &judged_memory, &mut memory)?;
    Ok(Met {
        fault,
        head,
        paging,
        report,
    })
}

/// Order 4's promise seen from outside, "that an accepted E's value is word i of the part that 01's
/// library call shows": E with each index of a head message, and with the first past it, which is
/// refused. None changes a word of the memory.
fn same_words(
    calls: &impl Calls,
    head: &Range<usize>,
    before: &[u32],
    memory: &mut [u32],
) -> Result<(), Difference> {
    if head.is_empty() {
        return Ok(());
    }
    let read = before[head.clone()].iter().map(|&value| Report {
        value,
        ..Report::default()
    });
    let past = Report::refused(Refusal::PastMessage);
    for (index, report) in read.chain([past]).enumerate() {
        let asked = Asked::Step(b'E', vec![index as u32]);
        let judged = told(&report_words(&report), REPORT);
        same_step(calls, &asked, &judged, before, memory)
            .map_err(|Difference(told)| Difference(format!("asked before, {asked}: {told}")))?;
    }
    Ok(())
}

/// What is asked of a memory leaves the report and the memory that it is to leave.
fn same_step(
    calls: &impl Calls,
    asked: &Asked,
    judged: &(Vec<u32>, u32),
    judged_memory: &[u32],
    memory: &mut [u32],
) -> Result<(), Difference> {
    same_part("the report", judged, report_word, |part| {
        calls.ask(asked, memory, part)
    })?;
    differing("the memory after it", judged_memory, memory, |at| {
        format!("word {at}, {}", what_stands_at(at))
    })
}

/// What a call is to leave in a part of some length, and to return: nothing where it has no room.
fn told(words: &[u32], length: usize) -> (Vec<u32>, u32) {
    let mut part = vec![BEFORE; length];
    match part.get_mut(..words.len()) {
        Some(room) => room.copy_from_slice(words),
        None => return (part, 0),
    }
    (part, words.len() as u32)
}

/// The report as `capi/fugu.h` has its words.
pub fn report_words(report: &Report) -> [u32; REPORT] {
    let mut words = [0; REPORT];
    words[..5].copy_from_slice(&[
        report.answer,
        report.value,
        report.trap as u32,
        report.upcall,
        report.moved,
    ]);
    if let Some(launched) = &report.launched {
        let count = launched.words.len();
        words[5..8].copy_from_slice(&[launched.node, launched.group, count as u32]);
        words[8..][..count].copy_from_slice(&launched.words);
    }
    words
}

fn report_word(at: usize) -> String {
    if (REPORT_NAMES.len()..REPORT).contains(&at) {
        return format!("word {} sent", at - REPORT_NAMES.len());
    }
    named(&REPORT_NAMES)(at)
}

fn named<'a>(names: &'a [&str]) -> impl Fn(usize) -> String + 'a {
    |at| match names.get(at) {
        Some(name) => name.to_string(),
        None => format!("word {at} of the part, behind those told"),
    }
}

/// A call leaves its part as it is to, and returns what it is to.
fn same_part(
    what: &str,
    (judged, judged_written): &(Vec<u32>, u32),
    name: impl Fn(usize) -> String,
    call: impl FnOnce(&mut [u32]) -> u32,
) -> Result<(), Difference> {
    let mut part = vec![BEFORE; judged.len()];
    let written = call(&mut part);
    differing(what, &[*judged_written], &[written], |_| {
        "count of words written".to_string()
    })?;
    differing(what, judged, &part, name)
}

/// Differs where a word does.
fn differing(
    what: &str,
    judged: &[u32],
    called: &[u32],
    name: impl Fn(usize) -> String,
) -> Result<(), Difference> {
    if judged == called {
        return Ok(());
    }
    let pairs = judged.iter().zip(called).enumerate();
    let differ: Vec<_> = pairs
        .filter(|(_, (judged, called))| judged != called)
        .collect();
    let mut text = format!("{what} differs");
    for (at, (judged, called)) in differ.iter().take(MOST_TOLD) {
        text += &format!("\n  {}: judge {judged}, library {called}", name(*at));
    }
    if differ.len() > MOST_TOLD {
        text += &format!("\n  and {} words more", differ.len() - MOST_TOLD);
    }
    Err(Difference(text))
}
