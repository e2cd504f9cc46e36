//! The command: a script on standard input, a page of its run on standard output.

mod options;

use std::fs::File;
use std::io::{self, Write};
use std::ops::RangeInclusive;
use std::path::Path;
use std::process::ExitCode;

use cli::{plain, Command, Failure};
use replay::data::MOST_LINES;
use replay::run::Run;
use replay::text::grouped;
use replay::{check, files, page, run};

use options::{Asked, Shown};

const REPLAY: Command = Command {
    name: "replay",
    help: include_str!("../../bin/help/replay"),
};

/// The exit status of a call that is wrong, where only the script shows it.
const MISUSED: u8 = 2;

/// No script is longer, and no page: a byte of a script takes at most four of it, and all else is little.
const LONGEST_SCRIPT: u64 = 64 << 20;
const LONGEST_PAGE: u64 = 5 * LONGEST_SCRIPT;

/// The title of the page without a script, and what is shown of it.
const EMPTY: &str = "a machine on your own disk";
const NO_LINES: RangeInclusive<u64> = RangeInclusive::new(1, 0);

fn main() -> ExitCode {
    REPLAY.run(|arguments| {
        let asked = options::read(arguments).map_err(Failure::Misused)?;
        let mut output = cli::output()?;
        let text = match asked {
            Asked::Page(shown) => page::written(&played(shown)?),
            Asked::Empty => page::written(&run::play(EMPTY.into(), None, b"", NO_LINES)),
            Asked::Check(file) => checked(&file)?,
        };
        output.write_all(text.as_bytes())?;
        Ok(ExitCode::SUCCESS)
    })
}

fn played(shown: Shown) -> Result<Run, Failure> {
    let input = cli::input()?;
    let memory = shown.on.as_deref().map(node).transpose()?;
    let script = files::whole("the script", input, LONGEST_SCRIPT)?;
    let lines =
        chosen(shown.lines, run::count(&script)).map_err(|told| Failure::Status(MISUSED, told))?;
    Ok(run::play(shown.title, memory, &script, lines))
}

/// Of these lines those that there are, where they can be shown.
fn chosen(lines: RangeInclusive<u64>, total: u64) -> Result<RangeInclusive<u64>, String> {
    let (first, last) = (*lines.start(), total.min(*lines.end()));
    if first > total.max(1) {
        let total = grouped(total);
        return Err(format!("--from {first} is behind the end: {total} lines"));
    }
    let count = last + 1 - first;
    if count > MOST_LINES {
        let (count, most) = (grouped(count), grouped(MOST_LINES));
        return Err(format!(
            "{count} lines; --from and --to choose at most {most}"
        ));
    }
    Ok(first..=last)
}

/// The memory in a file. The page says of one that is no node what it says of any.
fn node(path: &Path) -> Result<Vec<u32>, Failure> {
    let memory = files::memory(path).map_err(of(path))?;
    if !run::is_node(&memory) {
        let name = path.display();
        REPLAY.warn(&format!("{name} is no node: each line is answered 1"));
    }
    Ok(memory)
}

/// What is found of a page.
fn checked(path: &Path) -> Result<String, Failure> {
    let page = File::open(path).and_then(|file| files::whole("it", file, LONGEST_PAGE));
    let page = page.map_err(of(path))?;
    check::check(&page).map_err(|told| Failure::Wrong(format!("{}: {told}", path.display())))
}

/// An error with the file's name.
fn of(path: &Path) -> impl Fn(io::Error) -> Failure + '_ {
    move |error| Failure::Wrong(format!("{}: {}", path.display(), plain(&error)))
}
