//! How long the proved calls take, on the lines that the programs are measured with. `bin/bench`
//! runs it last.

use std::hint::black_box;
use std::process::ExitCode;
use std::time::{Duration, Instant};

use cli::{print, Command, Failure};
use fugu::{REPORT, SIZE};
use judge::memory;
use judge::node::Operation;
use judge::program::{run, tested_lines, Measured, JUDGE_ROUNDS, ROUNDS, TESTED_TIMES};
use judge::script;
use trials::asked::taken_apart;
use trials::comparison::report_words;

const COMMAND: Command = Command {
    name: "calls",
    help: "\
usage: calls [--script FILE]
       calls --help | --version

Plays the lines of a script's first 64 KiB, at most 4096, 64 times over from power-on, by fugu_step,
by fugu_line and by the judge's step on words, each of which tests the memory first; the lines are
read to operations before, but for fugu_line. If no script is named, these are those of bin/bench, E
alone among them. The time of a memory test is that of as many steps with one more test after each,
less that of the steps; that of a step without a test is what is left of it.

The reports and the memory must be the judge's, else the exit status is 1. The time of each of the 64
passes is the best of fifteen rounds, of five for the judge, so that other work on the machine counts
little.
",
};

fn main() -> ExitCode {
    run(&COMMAND, |arguments| {
        let script = match *arguments {
            ["--script", script] => Some(script),
            [] => None,
            _ => return Err(Failure::Misused("wrong arguments".to_string())),
        };
        let scripts = Measured::scripts(script)?;
        let texts: Result<Vec<String>, String> = scripts.iter().map(measured).collect();
        let texts = texts.map_err(Failure::Wrong)?;
        print(&format!("{}\n", texts.join("\n")))
    })
}

/// A line, and what it asks for in every form.
struct Line<'a> {
    text: &'a [u8],
    operation: Operation,
    letter: u8,
    numbers: Vec<u32>,
}

impl<'a> Line<'a> {
    fn new(text: &'a [u8]) -> Self {
        let operation = script::read(text);
        let (letter, numbers) = taken_apart(&operation);
        Line {
            text,
            operation,
            letter,
            numbers,
        }
    }
}

type Words = [u32; REPORT];

fn step(memory: &mut [u32], line: &Line, report: &mut Words) {
    fugu::calls::step(memory, line.letter, &line.numbers, report);
}

fn step_and_test(memory: &mut [u32], line: &Line, report: &mut Words) {
    step(memory, line, report);
    black_box(fugu::calls::test(memory));
}

fn line(memory: &mut [u32], line: &Line, report: &mut Words) {
    fugu::calls::line(memory, line.text, report);
}

fn judged(memory: &mut [u32], line: &Line, report: &mut Words) {
    *report = report_words(&memory::step(memory, &line.operation));
}

fn judged_and_test(memory: &mut [u32], line: &Line, report: &mut Words) {
    judged(memory, line, report);
    black_box(memory::broken_clause(memory));
}

/// The times as text, once the calls are seen to do what the judge does.
fn measured(Measured { name, script }: &Measured) -> Result<String, String> {
    let lines: Vec<Line> = tested_lines(script)
        .split_inclusive(|&byte| byte == b'\n')
        .map(|line| Line::new(line.strip_suffix(b"\n").unwrap_or(line)))
        .collect();
    if lines.is_empty() {
        return Ok(format!(
            "{name}: no line ends in the script's first 64 KiB: the calls are left out"
        ));
    }
    agree(&lines)?;

    let (mut steps, mut with_test, mut by_line) = (Best::new(), Best::new(), Best::new());
    let (mut judge_steps, mut judge_with_test) = (Best::new(), Best::new());
    for round in 0..ROUNDS {
        steps.run(&lines, step);
        with_test.run(&lines, step_and_test);
        by_line.run(&lines, line);
        if round < JUDGE_ROUNDS {
            judge_steps.run(&lines, judged);
            judge_with_test.run(&lines, judged_and_test);
        }
    }
    let calls = lines.len() * TESTED_TIMES;
    let (step, judge_step) = (steps.sum(), judge_steps.sum());
    let (test, judge_test) = (with_test.less(&steps), judge_with_test.less(&judge_steps));
    let by_judge = [
        ("the judge's step", judge_step),
        ("the judge's test", judge_test),
        (
            "the judge's step without its test",
            judge_step.saturating_sub(judge_test),
        ),
    ];
    let [judged, test_judged, untested_judged] = by_judge;
    let own = [
        (("fugu_step", step), judged),
        (("fugu_line", by_line.sum()), judged),
        (("fugu_test", test), test_judged),
        (
            ("fugu_step without its test", step.saturating_sub(test)),
            untested_judged,
        ),
    ];
    let mut text = format!("{name}: {calls} calls of each, in process");
    for (name, time) in own.map(|(own, _)| own).into_iter().chain(by_judge) {
        let time = time.as_secs_f64() * 1e9 / calls as f64;
        text += &format!("\n{time:>8.0} ns a call  {name}");
    }
    for ((name, time), (judge, judge_time)) in own {
        let ratio = time.as_secs_f64() / judge_time.as_secs_f64();
        text += &format!("\n{name} takes {ratio:.3} times the time of {judge}");
    }
    Ok(text)
}

/// All reports of both calls, and the memory at the end, are the judge's.
fn agree(lines: &[Line]) -> Result<(), String> {
    let mut memories = [started(), started(), started()];
    let [by_step, by_line, by_judge] = &mut memories;
    for number in 0..lines.len() * TESTED_TIMES {
        let asked = &lines[number % lines.len()];
        let mut reports = [[0; REPORT]; 3];
        step(by_step, asked, &mut reports[0]);
        line(by_line, asked, &mut reports[1]);
        judged(by_judge, asked, &mut reports[2]);
        for (name, report) in [("fugu_step", reports[0]), ("fugu_line", reports[1])] {
            if report != reports[2] {
                let text = asked.text.escape_ascii();
                return Err(format!(
                    "{name} differs from the judge at call {number}, {text}"
                ));
            }
        }
    }
    if by_step != by_judge || by_line != by_judge {
        return Err("the memory differs from the judge's".to_string());
    }
    Ok(())
}

/// A node at power-on.
fn started() -> Vec<u32> {
    let mut memory = vec![0; SIZE];
    memory::power_on(&mut memory);
    memory
}

/// The best time of each pass over the lines. A pass does the same work in every round, and is short
/// enough to be left alone in some.
struct Best([Duration; TESTED_TIMES]);

impl Best {
    fn new() -> Self {
        Best([Duration::MAX; TESTED_TIMES])
    }

    fn run(&mut self, lines: &[Line], call: impl Fn(&mut [u32], &Line, &mut Words)) {
        let mut memory = started();
        let mut report = [0; REPORT];
        for best in &mut self.0 {
            let start = Instant::now();
            for line in lines {
                call(&mut memory, line, &mut report);
            }
            *best = start.elapsed().min(*best);
        }
        black_box((memory, report));
    }

    fn sum(&self) -> Duration {
        self.0.iter().sum()
    }

    fn less(&self, other: &Best) -> Duration {
        self.sum().saturating_sub(other.sum())
    }
}
