//! Random memories by the proved calls and by the judge.

use std::process::ExitCode;

use cli::{Command, Failure};
use judge::program::{number, progress, run, tell_met};
use trials::calls::Proved;
use trials::table::table_of;

const COMMAND: Command = Command {
    name: "memories",
    help: include_str!("../../../bin/help/memories"),
};

const PROGRESS: u64 = 1_000_000;

fn main() -> ExitCode {
    run(&COMMAND, |arguments| {
        let [count, seed] = *arguments else {
            return Err(Failure::Misused("wrong arguments".to_string()));
        };
        let progress = progress(COMMAND.name, PROGRESS);
        let table = table_of(&Proved, number(count)?, number(seed)?, progress);
        let table = table.map_err(Failure::Wrong)?;
        tell_met(&table, &table.missing())
    })
}
