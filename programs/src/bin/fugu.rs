//! A script on standard input, its listing on standard output.

use std::process::ExitCode;

use cli::{Command, Failure};

const COMMAND: Command = Command {
    name: "fugu",
    help: include_str!("../../../bin/help/fugu"),
};

fn main() -> ExitCode {
    COMMAND.run(|arguments| {
        if !arguments.is_empty() {
            let message = "no argument is taken: the script comes on standard input";
            return Err(Failure::Misused(message.to_string()));
        }
        Ok(programs::play()?.into())
    })
}
