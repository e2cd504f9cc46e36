//! Random scripts of every flavour, played by a program and by the judge. `bin/compare` puts the
//! project's folder before the arguments.

use std::path::{Path, PathBuf};
use std::process::{self, ExitCode};

use cli::{print, Command, Done, Failure};
use judge::comparison::{compare, Difference};
use judge::counts::Counts;
use judge::generator::{Flavour, FLAVOURS};
use judge::program::{fugu, met_all, number, run, tell_progress};

const COMMAND: Command = Command {
    name: "compare",
    help: include_str!("../../../bin/help/compare"),
};

/// Scripts of so many lines are held to meet everything; half of it is enough for most seeds.
const ENOUGH: u64 = 4000;
const PROGRESS: u64 = 1_000_000;

fn main() -> ExitCode {
    run(&COMMAND, |arguments| {
        let Some((project, arguments)) = arguments.split_first() else {
            let folder = "called without the project's folder";
            return Err(Failure::Misused(folder.to_string()));
        };
        let (lines, seed, program) = understand(arguments)?;
        let program = program.map_or_else(|| fugu(Path::new(project)), Ok)?;
        tell(lines, &compare_all(lines, seed, &program)?)
    })
}

/// The lines, the seed, and the program where one is named.
fn understand(arguments: &[&str]) -> Result<(u64, u64, Option<PathBuf>), Failure> {
    match *arguments {
        [lines, seed] => Ok((number(lines)?, number(seed)?, None)),
        [lines, seed, program] => Ok((number(lines)?, number(seed)?, Some(program.into()))),
        _ => Err(Failure::Misused("wrong arguments".to_string())),
    }
}

/// What the scripts of all flavours met, or what differs.
fn compare_all(lines: u64, seed: u64, program: &Path) -> Result<Counts, Failure> {
    let mut counts = Counts::default();
    for flavour in &FLAVOURS {
        let name = flavour.name;
        let compared = compare_one(flavour, lines, seed, program, &mut counts);
        compared.map_err(|difference| {
            Failure::Wrong(match difference {
                Difference::NotStarted(_) => difference.to_string(),
                _ => format!("flavour {name}, seed {seed}, {difference}"),
            })
        })?;
    }
    Ok(counts)
}

fn compare_one(
    flavour: &Flavour,
    lines: u64,
    seed: u64,
    program: &Path,
    counts: &mut Counts,
) -> Result<(), Difference> {
    let script = |feed: &mut _| flavour.write(seed, lines, feed);
    compare(
        &mut process::Command::new(program),
        seed,
        script,
        |number, line, report| {
            counts.add(line, report);
            if number % PROGRESS == 0 || number == lines {
                let (own, name) = (COMMAND.name, flavour.name);
                tell_progress(&format!("{own}: {name}: {number} of {lines} lines"));
            }
        },
    )
}

fn tell(lines: u64, counts: &Counts) -> Done {
    print(&format!("{counts}\n{} lines compared\n", counts.lines()))?;
    if lines < ENOUGH {
        return Ok(ExitCode::SUCCESS);
    }
    met_all(&counts.missing())
}
