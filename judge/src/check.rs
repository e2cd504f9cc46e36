//! A script that is read and not played: which of its lines can't be read and why, and what is wrong with
//! the file as a whole.

use std::io::{self, BufRead, Write};

use crate::script::{self, Refused, BYTE_ORDER_MARKS};

/// What a script was found to be.
#[derive(Default)]
pub struct Checked {
    pub lines: u64,
    pub unreadable: u64,
    /// The byte order mark that it begins with.
    mark: Option<&'static [u8]>,
    /// The lines that end in a carriage return, and those that have one before their end.
    returns: u64,
    returns_inside: u64,
}

/// Writes a line for each line of a script that can't be read, then how many there are, and what is wrong
/// with the file.
pub fn check(mut input: impl BufRead, output: &mut impl Write) -> io::Result<Checked> {
    let mut checked = Checked::default();
    let mut line = Vec::new();
    while script::next_line(&mut input, &mut line)? {
        checked.add(&line);
        if let Err(refused) = script::readable(&line) {
            checked.unreadable += 1;
            writeln!(output, "{}", told(checked.lines, &refused, &line))?;
        }
    }
    writeln!(output, "{}", checked.count())?;
    checked.write_flaws(output)?;
    Ok(checked)
}

fn told(number: u64, Refused { field, why }: &Refused, line: &[u8]) -> String {
    let field = field.map_or(String::new(), |field| format!(", field {field}"));
    let colon = if line.is_empty() { "" } else { ": " };
    let shown = script::shown(line);
    format!("line {number}{field}: {why}{colon}{shown}")
}

impl Checked {
    fn add(&mut self, line: &[u8]) {
        if self.lines == 0 {
            let mut marks = BYTE_ORDER_MARKS.into_iter();
            self.mark = marks.find(|mark| line.starts_with(mark));
        }
        self.lines += 1;
        // In UTF-16 the other half of the carriage return or of the newline stands behind it.
        let line = line.strip_suffix(b"\0").unwrap_or(line);
        let before = line.strip_suffix(b"\r");
        self.returns += u64::from(before.is_some());
        self.returns_inside += u64::from(before.unwrap_or(line).contains(&b'\r'));
    }

    fn count(&self) -> String {
        let plural = if self.lines == 1 { "" } else { "s" };
        let lines = format!("{} line{plural}", self.lines);
        match self.unreadable {
            _ if self.lines == 0 => "no lines: the script is empty".to_string(),
            0 => format!("{lines}, all can be read"),
            all if all == self.lines => format!("{lines}, none can be read"),
            some => format!("{lines}, {some} of them can't be read"),
        }
    }

    /// What is wrong with the file, each with the command that mends it.
    fn flaws(&self) -> Vec<(String, &'static str)> {
        let [utf8, ..] = BYTE_ORDER_MARKS;
        let mut flaws = Vec::new();
        match self.mark {
            Some(mark) if mark == utf8 => {
                let told = "it begins with a byte order mark";
                flaws.push((told.to_string(), "tail -c +4"));
            }
            Some(_) => flaws.push(("it is UTF-16".to_string(), "iconv -f UTF-16 -t UTF-8")),
            None => (),
        }
        if self.lines == 1 && self.returns_inside > 0 {
            let told = "its lines end in carriage returns alone, as old Macintoshes wrote them";
            flaws.push((told.to_string(), r"tr '\r' '\n'"));
        } else if self.returns > 0 {
            let (some, all) = (self.returns, self.lines);
            let told =
                format!("{some} of {all} lines end in a carriage return, as Windows writes them");
            flaws.push((told, r"tr -d '\r'"));
        }
        flaws
    }

    fn write_flaws(&self, output: &mut impl Write) -> io::Result<()> {
        let (told, commands): (Vec<String>, Vec<&str>) = self.flaws().into_iter().unzip();
        for told in told {
            writeln!(output, "{told}")?;
        }
        if let [first, others @ ..] = commands.as_slice() {
            let others: String = others.iter().map(|other| format!(" | {other}")).collect();
            writeln!(output, "to mend it: {first} < SCRIPT{others} > MENDED")?;
        }
        Ok(())
    }
}
