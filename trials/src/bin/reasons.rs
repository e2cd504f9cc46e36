//! Why messages of random scripts were buffered: the proved call, asked line by line, held against the judge.

use std::fs;
use std::process::ExitCode;

use cli::{print, Command, Done, Failure};
use judge::program::{failed, number, progress, run, tell_met};
use trials::why::{rows, table_of, Proved};

const COMMAND: Command = Command {
    name: "reasons",
    help: include_str!("../../../bin/help/reasons"),
};

const PROGRESS: u64 = 1000;

fn main() -> ExitCode {
    run(&COMMAND, |arguments| match *arguments {
        ["--rows", script] => tell_rows(script),
        [count, seed] => tell_table(number(count)?, number(seed)?),
        _ => Err(Failure::Misused("wrong arguments".to_string())),
    })
}

fn tell_rows(path: &str) -> Done {
    let script = fs::read(path).map_err(failed(path))?;
    let rows = rows(&Proved, &script);
    let rows = rows.map_err(|difference| Failure::Wrong(format!("{path}: {difference}")))?;
    print(&format!("{rows}\n"))
}

fn tell_table(count: u64, seed: u64) -> Done {
    let table = table_of(&Proved, count, seed, progress(COMMAND.name, PROGRESS));
    let table = table.map_err(Failure::Wrong)?;
    tell_met(&table, &table.missing())
}
