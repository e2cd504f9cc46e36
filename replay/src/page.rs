//! The page: a template, and in its places the title, the listing, the run, the code and the page's own files.

use crate::code;
use crate::data;
use crate::run::{Begin, Head, Line, Run};
use crate::text::{escaped, grouped, marked_up, title};

const TEMPLATE: &str = include_str!("../page/page.html");
const STYLE: &str = include_str!("../page/page.css");

/// The page's rooms. The last one begins, so that all others are there.
const ROOMS: [&str; 10] = [
    include_str!("../page/map.js"),
    include_str!("../page/facts.js"),
    include_str!("../page/run.js"),
    include_str!("../page/words.js"),
    include_str!("../page/draw.js"),
    include_str!("../page/score.js"),
    include_str!("../page/node.js"),
    include_str!("../page/proved.js"),
    include_str!("../page/machine.js"),
    include_str!("../page/page.js"),
];

/// The bytes of a line that the listing shows: a longer one can't be read.
const SHOWN: usize = 128;

/// The columns of a report in the listing; what an accepted L sends is the last.
const COLUMNS: usize = 6;

/// A part of a page that is found again: what it is, and what stands before and behind it.
#[derive(PartialEq, Eq)]
pub struct Part {
    pub name: &'static str,
    before: &'static str,
    behind: &'static str,
}

pub const TITLE: Part = Part {
    name: "title",
    before: "<title>",
    behind: " · a node of the FUGU machine</title>",
};
pub const CAPTION: Part = Part {
    name: "caption",
    before: "<caption id=\"shown\">",
    behind: "</caption>",
};
pub const ROWS: Part = Part {
    name: "listing",
    before: "<tbody id=\"rows\">\n",
    behind: "</tbody>",
};
pub const RUN: Part = Part {
    name: "run",
    before: "<script type=\"text/plain\" id=\"run\">\n",
    behind: "</script>",
};
pub const CODE: Part = Part {
    name: "code",
    before: "<script type=\"text/plain\" id=\"code\">\n",
    behind: "</script>",
};

impl Part {
    /// The part as a page has it, where it has just one.
    pub fn of<'a>(&self, page: &'a str) -> Result<&'a str, String> {
        let name = self.name;
        let begun = page.split_once(self.before);
        let (_, from) = begun.ok_or(format!("there is no {name}"))?;
        if from.contains(self.before) {
            return Err(format!("there is more than one {name}"));
        }
        let ended = from.split_once(self.behind);
        let (part, _) = ended.ok_or(format!("the {name} is cut short"))?;
        Ok(part)
    }
}

/// The whole page. A place of the template is a name between double braces.
pub fn written(run: &Run) -> String {
    let places = [
        ("title", heading(&run.head)),
        ("style", STYLE.to_string()),
        ("shown", caption(&run.head)),
        ("rows", rows(run)),
        ("run", data::written(run)),
        ("code", code::written(code::CODE)),
        ("script", ROOMS.join("\n")),
    ];
    let mut parts = TEMPLATE.split("{{");
    let mut page = parts.next().unwrap_or_default().to_string();
    for part in parts {
        let (name, text) = part.split_once("}}").expect("a place ends");
        let place = places.iter().find(|(place, _)| *place == name);
        page += place
            .map(|(_, put)| put)
            .expect("a place has a name that is known");
        page += text;
    }
    page
}

fn heading(head: &Head) -> String {
    marked_up(&title(&head.title))
}

/// Which lines the listing shows, and where they begin.
fn caption(head: &Head) -> String {
    let [first, last, total] = [head.first, head.last, head.total].map(grouped);
    let lines = match head.total {
        0 => "No lines".to_string(),
        _ => format!("Lines {first} to {last} of {total}"),
    };
    let begin = match head.begin {
        Begin::PowerOn => "played from power-on",
        Begin::Node => "played on a node that was there",
        Begin::NoNode => "played on memory that is no node",
    };
    let newline = if head.newline {
        ""
    } else {
        "; the last has no newline"
    };
    format!("{lines}, {begin}{newline}")
}

/// The listing: each row leads by a link, with or without a script.
fn rows(run: &Run) -> String {
    let lines = (run.head.first..).zip(&run.lines);
    lines
        .map(|(number, line)| row(number, line, &reason(run, number)))
        .collect()
}

/// Why the message of an arrival was buffered, and by which line: a link where that is shown.
fn reason(run: &Run, number: u64) -> String {
    match run.reasons.get(&number) {
        None => String::new(),
        Some((reason, at)) if *at <= run.head.last => {
            format!("<a href=\"#line={at}\">{reason} at {at}</a>")
        }
        Some((reason, at)) => format!("{reason} at {at}"),
    }
}

fn row(number: u64, line: &Line, reason: &str) -> String {
    let mut cells: Vec<&str> = line.report.splitn(COLUMNS, ',').collect();
    cells.resize(COLUMNS, "");
    let cells: String = cells
        .iter()
        .map(|cell| format!("<td>{cell}</td>"))
        .collect();
    let text = marked_up(&shown(&line.bytes));
    let first = format!("<td>{number}</td><td><code>{text}</code></td>");
    format!("<tr id=\"line={number}\">{first}{cells}<td>{reason}</td></tr>\n")
}

/// A line as it can be read, cut where no line can be.
fn shown(bytes: &[u8]) -> String {
    match bytes.split_at_checked(SHOWN) {
        Some((first, rest)) if !rest.is_empty() => {
            format!("{}… ({} bytes)", escaped(first, b""), bytes.len())
        }
        _ => escaped(bytes, b""),
    }
}
