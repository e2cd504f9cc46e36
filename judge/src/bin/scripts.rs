//! Random scripts for comparing listings, and a count of what they meet.

use std::io::{self, BufWriter, Write};
use std::process::ExitCode;

use cli::{Command, Done, Failure};
use judge::counts::Counts;
use judge::generator::{Flavour, FLAVOURS};
use judge::program::{number, run, tell_met};

const COMMAND: Command = Command {
    name: "scripts",
    help: include_str!("../../../bin/help/scripts"),
};

enum Call {
    List,
    Script(u64, u64, &'static Flavour),
    Counts(u64, u64, &'static [Flavour]),
}

fn main() -> ExitCode {
    run(&COMMAND, |arguments| answer(understand(arguments)?))
}

fn understand(arguments: &[&str]) -> Result<Call, Failure> {
    Ok(match *arguments {
        ["--list"] => Call::List,
        ["--counts", seed, lines] => Call::Counts(number(seed)?, number(lines)?, &FLAVOURS),
        ["--counts", seed, lines, name] => {
            let one = std::slice::from_ref(flavour(name)?);
            Call::Counts(number(seed)?, number(lines)?, one)
        }
        [seed, lines, name] => Call::Script(number(seed)?, number(lines)?, flavour(name)?),
        _ => return Err(Failure::Misused("wrong arguments".to_string())),
    })
}

fn flavour(name: &str) -> Result<&'static Flavour, Failure> {
    Flavour::named(name).ok_or_else(|| Failure::Misused(format!("no such flavour: {name}")))
}

fn answer(call: Call) -> Done {
    let mut output = BufWriter::new(cli::output()?);
    match call {
        Call::List => list(&mut output)?,
        Call::Script(seed, lines, flavour) => flavour.write(seed, lines, &mut output)?,
        Call::Counts(seed, lines, flavours) => {
            let counts = count(seed, lines, flavours)?;
            // One flavour alone need not meet everything.
            let all = flavours.len() == FLAVOURS.len();
            let missing = if all { counts.missing() } else { Vec::new() };
            return tell_met(&counts, &missing);
        }
    }
    output.flush()?;
    Ok(ExitCode::SUCCESS)
}

fn list(output: &mut impl Write) -> io::Result<()> {
    for flavour in &FLAVOURS {
        writeln!(output, "{:<10} {}", flavour.name, flavour.about)?;
    }
    Ok(())
}

fn count(seed: u64, lines: u64, flavours: &[Flavour]) -> io::Result<Counts> {
    let mut counts = Counts::default();
    for flavour in flavours {
        counts.add_script(flavour.script(seed, lines).as_slice())?;
    }
    Ok(counts)
}
