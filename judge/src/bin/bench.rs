//! How long programs take for one script, or how many instructions. `bin/bench` puts the project's
//! folder before the arguments.

use std::fs::{self, File};
use std::io::Write;
use std::path::{Path, PathBuf};
use std::process::{Command, ExitCode, ExitStatus, Stdio};
use std::time::{Duration, Instant};

use cli::{print, Done, Failure};
use judge::program::{
    failed, first_lines, fugu, run, tested_lines, Measured, JUDGE_ROUNDS, ROUNDS, TESTED_TIMES,
};
use judge::script;

const COMMAND: cli::Command = cli::Command {
    name: "bench",
    help: include_str!("../../../bin/help/bench"),
};

/// So many lines are counted: callgrind takes some fifty times the time.
const COUNTED_LINES: usize = 100_000;

struct Call<'a> {
    counts: bool,
    script: Option<&'a str>,
    other: Option<Other<'a>>,
}

/// Another program, and what it is called with.
#[derive(Clone, Copy)]
struct Other<'a> {
    program: &'a str,
    arguments: &'a [&'a str],
}

fn main() -> ExitCode {
    run(&COMMAND, |arguments| {
        let Some((project, arguments)) = arguments.split_first() else {
            let folder = "called without the project's folder";
            return Err(Failure::Misused(folder.to_string()));
        };
        bench(Path::new(project), &understand(arguments)?)
    })
}

fn understand<'a>(arguments: &'a [&'a str]) -> Result<Call<'a>, Failure> {
    let (counts, arguments) = match *arguments {
        ["--instructions", ref arguments @ ..] => (true, arguments),
        ref arguments => (false, arguments),
    };
    let (script, arguments) = match *arguments {
        ["--script", script, ref arguments @ ..] => (Some(script), arguments),
        ref arguments => (None, arguments),
    };
    let other = match *arguments {
        [] => None,
        [program, ref arguments @ ..] if !program.starts_with('-') => {
            Some(Other { program, arguments })
        }
        _ => return Err(Failure::Misused("wrong arguments".to_string())),
    };
    Ok(Call {
        counts,
        script,
        other,
    })
}

fn bench(project: &Path, call: &Call) -> Done {
    let program = fugu(project)?;
    for measured in Measured::scripts(call.script)? {
        if call.counts {
            count_one(&program, call.other, &measured)?;
        } else {
            bench_one(project, &program, call.other, &measured)?;
        }
    }
    Ok(ExitCode::SUCCESS)
}

/// The instructions a line of the project's program and of another.
fn count_one(fugu: &Path, other: Option<Other>, Measured { name, script }: &Measured) -> Done {
    let script = first_lines(script, COUNTED_LINES);
    let lines = script.iter().filter(|&&byte| byte == b'\n').count();
    if lines == 0 {
        return print(&format!("{name}: no line ends with a newline\n"));
    }
    let file = Scratch::holding("counted", script)?;
    let mut runners = vec![Runner::new("fugu", fugu, &file)];
    runners.extend(other.map(|other| Runner::other(other, &file)));
    let listing = script::listing(script);
    let mut text = format!("{name}: {lines} lines");
    let mut counted = Vec::new();
    for runner in &runners {
        runner.lists(&listing)?;
        let instructions = runner.instructions()?;
        let by_line = instructions as f64 / lines as f64;
        text += &format!("\n{by_line:>8.1} instructions a line  {}", runner.name);
        counted.push(by_line);
    }
    if let [own, other] = counted[..] {
        let (ratio, name) = (own / other, &runners[1].name);
        text += &format!("\nfugu takes {ratio:.2} times the instructions of {name}");
    }
    print(&format!("{text}\n"))
}

/// Both parts: the program, and the calls that test the memory.
fn bench_one(
    project: &Path,
    fugu: &Path,
    other: Option<Other>,
    Measured { name, script }: &Measured,
) -> Done {
    let whole = Scratch::holding("whole", script)?;
    race(
        name,
        Runner::new("fugu", fugu, &whole),
        other.map(|other| Runner::other(other, &whole)),
        script,
        &whole,
    )?;

    let tested = project.join("crates/tested/out/tested");
    if !tested.exists() {
        return print(
            "crates/tested/out/tested is not there, so the tested calls are left out: rt run tested, in its folder, builds it\n",
        );
    }
    let first = tested_lines(script);
    let repeated = first.repeat(TESTED_TIMES);
    let first = Scratch::holding("first", first)?;
    let whole = Scratch::holding("repeated", &repeated)?;
    race(
        name,
        Runner::new("tested", &tested, &first),
        other.map(|other| Runner::other(other, &whole).testing()),
        &repeated,
        &whole,
    )
}

/// Runs the project's program, the judge's and another by turns, and tells their best times.
fn race(name: &str, own: Runner, other: Option<Runner>, script: &[u8], file: &Scratch) -> Done {
    let mut runners = vec![own, Runner::judge(file)?];
    runners.extend(other);
    let listing = script::listing(script);
    for runner in &runners {
        runner.lists(&listing)?;
    }
    for round in 0..ROUNDS {
        for runner in runners.iter_mut().filter(|runner| round < runner.rounds) {
            runner.run()?;
        }
    }
    let lines = listing.iter().filter(|&&byte| byte == b'\n').count() - 1;
    let mut text = format!("{name}: {lines} lines, {} bytes", script.len());
    for runner in &runners {
        text += &format!("\n{}", runner.time(lines));
    }
    for runner in &runners[1..] {
        text += &format!("\n{}", runners[0].ratio(runner));
    }
    print(&format!("{text}\n"))
}

/// A program, and its best time so far.
struct Runner {
    name: String,
    program: PathBuf,
    arguments: Vec<String>,
    script: PathBuf,
    rounds: u32,
    best: Duration,
}

impl Runner {
    fn new(name: &str, program: &Path, script: &Scratch) -> Self {
        Runner {
            name: name.to_string(),
            program: program.to_path_buf(),
            arguments: Vec::new(),
            script: script.0.clone(),
            rounds: ROUNDS,
            best: Duration::MAX,
        }
    }

    fn other(other: Other, script: &Scratch) -> Self {
        let called = [&[other.program], other.arguments].concat().join(" ");
        Runner {
            arguments: other.arguments.iter().map(|a| a.to_string()).collect(),
            ..Runner::new(&called, Path::new(other.program), script)
        }
    }

    /// The judge's program, which stands beside this one.
    fn judge(script: &Scratch) -> Result<Self, Failure> {
        let own = std::env::current_exe().map_err(failed(COMMAND.name))?;
        Ok(Runner {
            rounds: JUDGE_ROUNDS,
            ..Runner::new("judge", &own.with_file_name("judge"), script)
        })
    }

    /// With the memory tested before every step.
    fn testing(mut self) -> Self {
        self.name += " --test";
        self.arguments.push("--test".to_string());
        self
    }

    /// The program on its script.
    fn command(&self) -> Result<Command, Failure> {
        let mut command = Command::new(&self.program);
        command.args(&self.arguments);
        command.stdin(self.input()?);
        Ok(command)
    }

    fn input(&self) -> Result<File, Failure> {
        File::open(&self.script).map_err(failed(&self.script))
    }

    /// The instructions for its script, less those for an empty one.
    fn instructions(&self) -> Result<u64, Failure> {
        let script = self.input()?.into();
        let (all, none) = (self.counted(script)?, self.counted(Stdio::null())?);
        Ok(all.saturating_sub(none))
    }

    /// The instructions for an input, as callgrind counts them.
    fn counted(&self, input: Stdio) -> Result<u64, Failure> {
        let mut valgrind = Command::new("valgrind");
        valgrind.args(["--tool=callgrind", "--callgrind-out-file=/dev/null"]);
        valgrind.arg(&self.program).args(&self.arguments);
        let output = valgrind.stdin(input).stdout(Stdio::null()).output();
        let output = output.map_err(failed("valgrind"))?;
        let message = String::from_utf8_lossy(&output.stderr);
        let collected = message
            .lines()
            .find_map(|line| line.split_once("Collected : "));
        collected
            .and_then(|(_, count)| count.trim().parse().ok())
            .filter(|_| output.status.success())
            .ok_or_else(|| Failure::Wrong(format!("valgrind: {}: {message}", output.status)))
    }

    /// Its listing is the judge's, or it is an error.
    fn lists(&self, listing: &[u8]) -> Result<(), Failure> {
        let name = &self.name;
        let output = self.command()?.output();
        let output = output.map_err(failed(name))?;
        self.ended_well(output.status)?;
        if output.stdout != listing {
            let differs = format!("{name}: the listing differs from the judge's");
            return Err(Failure::Wrong(differs));
        }
        Ok(())
    }

    fn run(&mut self) -> Result<(), Failure> {
        let mut command = self.command()?;
        command.stdout(Stdio::null());
        let start = Instant::now();
        let status = command.status().map_err(failed(&self.name))?;
        self.best = self.best.min(start.elapsed());
        self.ended_well(status)
    }

    fn ended_well(&self, status: ExitStatus) -> Result<(), Failure> {
        if status.success() {
            return Ok(());
        }
        Err(Failure::Wrong(format!("{}: {status}", self.name)))
    }

    fn time(&self, lines: usize) -> String {
        let seconds = self.best.as_secs_f64();
        let (time, rate) = (seconds * 1e3, lines as f64 / 1e6 / seconds);
        let name = &self.name;
        format!("{time:>8.1} ms{rate:>8.2} million lines a second  {name}")
    }

    fn ratio(&self, other: &Runner) -> String {
        let ratio = self.best.as_secs_f64() / other.best.as_secs_f64();
        format!(
            "{} takes {ratio:.2} times the time of {}",
            self.name, other.name
        )
    }
}

/// A script in a file of its own, which goes when this does.
struct Scratch(PathBuf);

impl Scratch {
    fn holding(name: &str, script: &[u8]) -> Result<Self, Failure> {
        let name = format!("{}-{}-{name}.script", COMMAND.name, std::process::id());
        let path = std::env::temp_dir().join(name);
        let mut file = File::create_new(&path).map_err(failed(&path))?;
        let scratch = Scratch(path);
        let written = file.write_all(script);
        written.map_err(failed(&scratch.0))?;
        Ok(scratch)
    }
}

impl Drop for Scratch {
    fn drop(&mut self) {
        // A file that stays behind in the folder for such files harms nobody.
        let _ = fs::remove_file(&self.0);
    }
}
