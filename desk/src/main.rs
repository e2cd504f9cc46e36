//! A node kept in a file: a script on standard input, its listing on standard output.

mod kept;
mod new;
mod old;
mod play;
mod signals;

use std::ffi::{OsStr, OsString};
use std::path::Path;
use std::process::ExitCode;

use cli::{Command, Done, Failure};
use fugu::calls;
use kept::Kept;

const DESK: Command = Command {
    name: "desk",
    help: include_str!("../../bin/help/desk"),
};

/// The exit status where the file is no node.
const NO_NODE: u8 = 3;

fn main() -> ExitCode {
    DESK.run(|arguments: &[OsString]| match arguments {
        [file] if is_name(file) => desk(Path::new(file), false),
        [keep, file] if keep == "--keep" && is_name(file) => desk(Path::new(file), true),
        _ => {
            let message = "one FILE is taken, and --keep before it";
            Err(Failure::Misused(message.to_string()))
        }
    })
}

fn is_name(argument: &OsStr) -> bool {
    !argument.as_encoded_bytes().starts_with(b"-")
}

/// The file changes last: its listing is written by then.
fn desk(path: &Path, keep: bool) -> Done {
    let (input, output) = (cli::input()?, cli::output()?);
    signals::catch();
    let kept = Kept::open(path).map_err(Failure::Wrong)?;
    let clause = broken(&kept);
    if let Some(clause) = &clause {
        DESK.warn(&format!("{} is no node: {clause}", path.display()));
    }
    let (memory, played) = play::play(kept.memory().to_vec(), input, output);
    let ended = played.map(|()| ExitCode::SUCCESS);
    if ended.is_err() && (!keep || memory == kept.memory()) {
        return ended;
    }
    if clause.is_some() {
        return Ok(ExitCode::from(NO_NODE));
    }
    signals::ignore();
    kept.put_back(&memory).map_err(Failure::Wrong)?;
    ended
}

/// Why what a file holds is no node: the proved test says that it is none, the judge in one line which clause
/// fails.
fn broken(kept: &Kept) -> Option<String> {
    if calls::test(kept.memory()) == 1 {
        return None;
    }
    Some(match judge::dump::open(kept.place()) {
        Ok(Err(no_node)) => in_a_line(&no_node.to_string()),
        _ => "the proved test says so, and the judge finds no clause that fails".to_string(),
    })
}

/// The clause, the first word that breaks it, and how many more do.
fn in_a_line(told: &str) -> String {
    let mut lines = told.lines().map(str::trim);
    let clause = lines.next().unwrap_or_default();
    match (lines.next(), lines.count()) {
        (None, _) => clause.to_string(),
        (Some(word), 0) => format!("{clause} ({word})"),
        (Some(word), more) => format!("{clause} ({word}; and {more} more)"),
    }
}
