//! How every command begins and ends.
//!
//! A command takes `-h`, `--help` and `--version`. It looks at the standard streams that it uses before it
//! does anything with them. Its exit status is 0 where all went well, 1 where something failed or was found
//! wrong, and 2 where the call is wrong; standard error tells why, one line for a failure. Where the reader of
//! its output has gone away, it ends as any command does there: quietly, by the signal that says so, which a
//! shell shows as 141.

mod streams;

use std::env;
use std::ffi::{c_int, OsString};
use std::io::{self, Write};
use std::process::ExitCode;

pub use streams::{input, let_pipes_end_it, output, Input, Output};

/// The project's version, and behind it the identity of the toolchain that it was proved with.
const VERSION: &str = include_str!("../../VERSION");

/// A command: its name, and the text that `--help` writes, whose first paragraph is its usage.
pub struct Command {
    pub name: &'static str,
    pub help: &'static str,
}

/// Why a command ends otherwise than well.
#[derive(Debug)]
pub enum Failure {
    /// A stream or a file failed: the error names it.
    Io(io::Error),
    /// Something was found wrong.
    Wrong(String),
    /// The call can't be understood: what it says is followed by the usage.
    Misused(String),
    /// Any other exit status.
    Status(u8, String),
    /// A signal asked for the end, by its number: the command ends by it.
    Signal(c_int),
}

impl From<io::Error> for Failure {
    fn from(error: io::Error) -> Failure {
        Failure::Io(error)
    }
}

/// How a command ended.
pub type Done = Result<ExitCode, Failure>;

impl Command {
    /// Runs it: what it does with its arguments, where these ask for no help and no version.
    pub fn run(&self, body: impl FnOnce(&[OsString]) -> Done) -> ExitCode {
        let arguments: Vec<OsString> = env::args_os().skip(1).collect();
        let done = match arguments.as_slice() {
            [asked] if asked == "-h" || asked == "--help" => print(self.help),
            [asked] if asked == "--version" => print(&self.version()),
            all => body(all),
        };
        done.unwrap_or_else(|failure| self.ended(&failure))
    }

    fn version(&self) -> String {
        let mut lines = VERSION.lines();
        let mut next = || lines.next().unwrap_or_default();
        format!("{} {}, proved with {}\n", self.name, next(), next())
    }

    fn ended(&self, failure: &Failure) -> ExitCode {
        match failure {
            Failure::Io(error) if streams::reader_is_gone(error) => {
                streams::end_by(streams::SIGPIPE)
            }
            Failure::Io(error) => self.tell(1, &plain(error)),
            Failure::Wrong(message) => self.tell(1, message),
            Failure::Misused(message) => {
                let usage = self.help.split("\n\n").next().unwrap_or_default();
                self.tell(2, &format!("{message}\n{usage}"))
            }
            Failure::Status(status, message) => self.tell(*status, message),
            Failure::Signal(number) => streams::end_by(*number),
        }
    }

    fn tell(&self, status: u8, message: &str) -> ExitCode {
        self.warn(message);
        ExitCode::from(status)
    }

    /// A message on standard error. If that fails too, the exit status is all there is to tell.
    pub fn warn(&self, message: &str) {
        let _ = writeln!(io::stderr(), "{}: {}", self.name, message.trim_end());
    }
}

/// Writes a text to standard output; that is all there was to do.
pub fn print(text: &str) -> Done {
    output()?.write_all(text.as_bytes())?;
    Ok(ExitCode::SUCCESS)
}

/// An error in words: the system's number says nothing more.
pub fn plain(error: &io::Error) -> String {
    let told = error.to_string();
    match told.find(" (os error ") {
        Some(end) => told[..end].to_string(),
        None => told,
    }
}
