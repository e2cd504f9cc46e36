//! A page held against the proved calls: what stands in it, written anew.

use crate::data::Told;
use crate::page::{CAPTION, CODE, ROWS, RUN, TITLE};
use crate::run::{lines, power_on, reasons, Begin, Head, Reasons, Run};
use crate::text::grouped;
use crate::{code, data, difference, page};

/// The end of every page, but for white space.
const LAST: &str = "</html>";

/// What is said of a page that is whole, and was made by other files than this program's.
const ANOTHER: &str = "; what draws it, or the code in it, is not what this program writes";

/// What is found of a page: that its lines agree, and what could not be held against anything; or the first
/// difference.
pub fn check(page: &[u8]) -> Result<String, String> {
    let text = str::from_utf8(page).map_err(|_| "no replay: it is no text in UTF-8")?;
    if !text.trim_end().ends_with(LAST) {
        let told = format!("no replay, or one cut short: it does not end with {LAST}");
        return Err(told);
    }
    let has = RUN.of(text).map_err(|told| format!("no replay: {told}"))?;
    let run = played(data::read(has)?)?;
    let expected = page::written(&run);
    compare(&expected, text, &run)?;
    let own = if expected == text { "" } else { ANOTHER };
    Ok(format!("{}{own}\n", found(&run)))
}

/// The run that the page has in it, played anew.
fn played(told: Told) -> Result<Run, String> {
    begins(&told.head)?;
    let reasons = match &told.head {
        head if head.is_whole() => reasons(&told.script),
        head if head.begin == Begin::PowerOn => told.reasons,
        _ => Reasons::new(),
    };
    Ok(Run {
        lines: lines(told.head.start.clone(), &told.script),
        head: told.head,
        reasons,
    })
}

/// Whether the start can be what a run begins at: behind power-on there are nodes alone.
fn begins(head: &Head) -> Result<(), String> {
    let on = Begin::on(&head.start);
    match head.begin {
        Begin::PowerOn if head.first == 1 && head.start != power_on() => {
            Err("the start is not power-on".to_string())
        }
        Begin::PowerOn | Begin::Node if on == Begin::NoNode => {
            Err("the start is no node".to_string())
        }
        Begin::NoNode if on == Begin::Node => Err("the start is a node".to_string()),
        _ => Ok(()),
    }
}

/// The page that the run makes, and the one there is, by their parts.
fn compare(expected: &str, has: &str, run: &Run) -> Result<(), String> {
    for part in [RUN, ROWS, TITLE, CAPTION] {
        let (expected, has) = (part.of(expected)?, part.of(has)?);
        if expected != has {
            return Err(difference::told(&part, expected, has, run));
        }
    }
    if !code::is_whole(CODE.of(has)?) {
        return Err("the code has not the length and the sum that it names".to_string());
    }
    Ok(())
}

/// What is said of a run that agrees.
fn found(run: &Run) -> String {
    let taken = taken(&run.head);
    match run.lines.len() {
        1 => format!("1 line agrees{taken}"),
        lines => format!("{} lines agree{taken}", grouped(lines as u64)),
    }
}

/// What of a page is taken as it stands.
fn taken(head: &Head) -> String {
    let [first, last, total] = [head.first, head.last, head.total].map(grouped);
    let shown = format!("; the page has lines {first} to {last} of {total}");
    match head.begin {
        Begin::PowerOn if head.is_whole() => String::new(),
        Begin::PowerOn if head.first == 1 => format!("{shown}: the reasons are not checked"),
        Begin::PowerOn => format!(
            "{shown}: what came before is taken as it stands, and the reasons are not checked"
        ),
        Begin::Node => "; the node that they begin at is taken as it stands".to_string(),
        Begin::NoNode => "; the memory that they begin at is no node".to_string(),
    }
}
