//! The judge's program: a script on standard input, its listing on standard output, or what the node
//! holds after it, or why its messages were buffered; or what a node's memory in a file holds, or where
//! two such memories differ.

use std::ffi::OsStr;
use std::io::{self, BufReader, BufWriter, Write};
use std::path::Path;
use std::process::ExitCode;

use cli::{plain, print, Command, Done, Failure, Input, Output};
use judge::dump::{self, Dump, NoNode};
use judge::memory::SIZE;
use judge::node::Node;
use judge::program::named;
use judge::script::{self, write_listing};
use judge::state;
use judge::why;

const COMMAND: Command = Command {
    name: "judge",
    help: include_str!("../../bin/help/judge"),
};
/// The exit status where a file can't be read: nothing was found, right or wrong.
const UNREAD: u8 = 2;
/// That of a comparison where a file holds no node: 1 is that of a difference.
const NOT_COMPARED: u8 = 3;

fn main() -> ExitCode {
    COMMAND.run(|arguments| {
        let arguments: Vec<&OsStr> = arguments.iter().map(|argument| argument.as_ref()).collect();
        match arguments.as_slice() {
            [] => list(),
            [after] if *after == "--after" => tell_after(),
            [why] if *why == "--why" => misused("--why needs a LINE or --all"),
            [why, all] if *why == "--why" && *all == "--all" => tell_all(),
            [why, line] if *why == "--why" => match script::number(line.as_encoded_bytes()) {
                Ok(line) => tell_why(line),
                Err(_) => misused(&format!("not a number: {}", line.to_string_lossy())),
            },
            [state] if *state == "--state" => misused("--state needs a FILE"),
            [state, file] if *state == "--state" => tell_state(Path::new(file)),
            [differ] | [differ, _] if *differ == "--differ" => misused("--differ needs two files"),
            [differ, one, two] if *differ == "--differ" => {
                tell_differences(Path::new(one), Path::new(two))
            }
            _ => misused("wrong arguments"),
        }
    })
}

fn misused(message: &str) -> Done {
    Err(Failure::Misused(message.to_string()))
}

/// Both streams, looked at before either is used.
fn streams() -> io::Result<(BufReader<Input>, BufWriter<Output>)> {
    Ok((
        BufReader::new(cli::input()?),
        BufWriter::new(cli::output()?),
    ))
}

fn list() -> Done {
    let (input, mut output) = streams()?;
    write_listing(input, &mut output)?;
    output.flush()?;
    Ok(ExitCode::SUCCESS)
}

fn tell_after() -> Done {
    let (input, output) = streams()?;
    let node = script::run(input, |_, _| Ok::<(), io::Error>(()))?;
    write_state(&node, output)
}

fn tell_why(line: u32) -> Done {
    let (input, _) = streams()?;
    match why::answer(input, line.into())? {
        Ok(why) => print(&format!("line {line}: {why}\n")),
        Err(refused) => Err(Failure::Wrong(format!("line {line}: {refused}"))),
    }
}

fn tell_all() -> Done {
    let (input, mut output) = streams()?;
    why::follow(input, |line, answer| match answer {
        Ok(why) => writeln!(output, "line {line}: {why}"),
        Err(_) => Ok(()),
    })?;
    output.flush()?;
    Ok(ExitCode::SUCCESS)
}

fn tell_state(file: &Path) -> Done {
    let output = BufWriter::new(cli::output()?);
    match opened(file)? {
        Ok(dump) => write_state(&dump.node, output),
        Err(no_node) => Err(Failure::Wrong(told(file, &no_node))),
    }
}

fn write_state(node: &Node, mut output: impl Write) -> Done {
    state::write(node, &mut output)?;
    output.flush()?;
    Ok(ExitCode::SUCCESS)
}

fn tell_differences(one: &Path, two: &Path) -> Done {
    let mut output = BufWriter::new(cli::output()?);
    let (first, second) = match (opened(one)?, opened(two)?) {
        (Ok(first), Ok(second)) => (first, second),
        (first, second) => {
            let faults = [(one, first.err()), (two, second.err())];
            let faults = faults.map(|(file, fault)| fault.map(|fault| told(file, &fault)));
            let faults: Vec<String> = faults.into_iter().flatten().collect();
            let faults = faults.join(&format!("\n{}: ", COMMAND.name));
            return Err(Failure::Status(NOT_COMPARED, faults));
        }
    };
    let mut differ = false;
    let mut tell = |difference: &str| {
        differ = true;
        writeln!(output, "{difference}")
    };
    for difference in state::differences(&first.node, &second.node) {
        tell(&difference)?;
    }
    tell_behind((one, first), (two, second), tell)?;
    output.flush()?;
    Ok(ExitCode::from(u8::from(differ)))
}

/// What differs behind two nodes: how many words there are, and those that both have.
fn tell_behind(
    (one, mut first): (&Path, Dump),
    (two, mut second): (&Path, Dump),
    mut tell: impl FnMut(&str) -> io::Result<()>,
) -> Result<(), Failure> {
    let (first_words, second_words) = (first.words_behind, second.words_behind);
    if first_words != second_words {
        tell(&format!(
            "words behind the node: {first_words}, {second_words}"
        ))?;
    }
    for address in SIZE.. {
        let first = first.word_behind().map_err(|error| unread(one, &error))?;
        let second = second.word_behind().map_err(|error| unread(two, &error))?;
        let (Some(first), Some(second)) = (first, second) else {
            break;
        };
        if first != second {
            tell(&format!("word {address}: {first}, {second}"))?;
        }
    }
    Ok(())
}

fn opened(file: &Path) -> Result<Result<Dump, NoNode>, Failure> {
    dump::open(file).map_err(|error| unread(file, &error))
}

fn unread(file: &Path, error: &io::Error) -> Failure {
    Failure::Status(UNREAD, format!("{}: {}", named(file), plain(error)))
}

fn told(file: &Path, no_node: &NoNode) -> String {
    format!("{} is no node: {no_node}", named(file))
}
