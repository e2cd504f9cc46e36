//! Why the message of a line of the script on standard input was buffered, or of every line.

use std::process::ExitCode;

use cli::{Command, Failure};

const COMMAND: Command = Command {
    name: "why",
    help: include_str!("../../../bin/help/why"),
};

/// The status that says that an argument asks for nothing.
const MISUSED: u8 = 2;

fn main() -> ExitCode {
    COMMAND.run(|arguments| {
        let status = match arguments {
            // The program reads it by itself.
            [_] => programs::play()?,
            _ => MISUSED,
        };
        if status == MISUSED {
            let message =
                "one LINE, by its number, or --all is taken: the script comes on standard input";
            return Err(Failure::Misused(message.to_string()));
        }
        Ok(status.into())
    })
}
