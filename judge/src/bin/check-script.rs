//! Which lines of a script can't be read, and why.

use std::io::{BufReader, BufWriter, Write};
use std::process::ExitCode;

use cli::{Command, Done, Failure};
use judge::check::check;

const COMMAND: Command = Command {
    name: "check-script",
    help: include_str!("../../../bin/help/check-script"),
};

fn main() -> ExitCode {
    COMMAND.run(|arguments| {
        if arguments.is_empty() {
            return tell();
        }
        let taken =
            "no argument is taken but --help and --version; the script comes on standard input";
        Err(Failure::Misused(taken.to_string()))
    })
}

fn tell() -> Done {
    let input = BufReader::new(cli::input()?);
    let mut output = BufWriter::new(cli::output()?);
    let checked = check(input, &mut output)?;
    output.flush()?;
    Ok(ExitCode::from(u8::from(checked.unreadable > 0)))
}
