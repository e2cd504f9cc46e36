//! What a call asks for.

use std::collections::BTreeMap;
use std::ffi::{OsStr, OsString};
use std::ops::RangeInclusive;
use std::path::PathBuf;

use replay::text::{number, title};

/// The options, each with what it takes, if anything.
const OPTIONS: [(&str, Option<&str>); 6] = [
    (TITLE, Some("TEXT")),
    (FROM, Some("N")),
    (TO, Some("N")),
    (ON, Some("NODE")),
    (EMPTY, None),
    (CHECK, Some("FILE.html")),
];
const TITLE: &str = "--title";
const FROM: &str = "--from";
const TO: &str = "--to";
const ON: &str = "--on";
const EMPTY: &str = "--empty";
const CHECK: &str = "--check";

/// The title of a script that is given none: it comes without a name.
const UNTITLED: &str = "a script";

#[derive(Debug, PartialEq, Eq)]
pub enum Asked {
    /// The page of a script.
    Page(Shown),
    /// The page of none.
    Empty,
    Check(PathBuf),
}

/// What is shown of a script.
#[derive(Debug, PartialEq, Eq)]
pub struct Shown {
    pub title: Vec<u8>,
    /// The numbers of the lines, also where there are none behind some.
    pub lines: RangeInclusive<u64>,
    /// The file of the node that it is played on; else it is played from power-on.
    pub on: Option<PathBuf>,
}

type Values<'a> = BTreeMap<&'static str, &'a OsStr>;

/// What the arguments ask for, or why they can't be understood.
pub fn read(arguments: &[OsString]) -> Result<Asked, String> {
    let values = values(arguments)?;
    let alone = values.len() == 1;
    match (values.get(CHECK), values.get(EMPTY)) {
        (Some(file), _) if alone => Ok(Asked::Check(PathBuf::from(file))),
        (None, Some(_)) if alone => Ok(Asked::Empty),
        (None, None) => Ok(Asked::Page(shown(&values)?)),
        _ => Err(format!("{CHECK} and {EMPTY} are taken alone")),
    }
}

/// Each option's value, an empty one where it takes none.
fn values(arguments: &[OsString]) -> Result<Values<'_>, String> {
    let mut values = Values::new();
    let mut arguments = arguments.iter();
    while let Some(argument) = arguments.next() {
        let Some((name, takes)) = OPTIONS.into_iter().find(|(name, _)| argument == name) else {
            return Err(format!(
                "{} is no option",
                title(argument.as_encoded_bytes())
            ));
        };
        let value = match takes {
            Some(takes) => {
                let value = arguments.next().filter(|value| is_value(name, value));
                value.ok_or(format!("{name} lacks its {takes}"))?
            }
            None => OsStr::new(""),
        };
        if values.insert(name, value).is_some() {
            return Err(format!("{name} stands twice"));
        }
    }
    Ok(values)
}

/// Only a title may begin as an option does.
fn is_value(name: &str, value: &OsStr) -> bool {
    !value.is_empty() && (name == TITLE || !value.as_encoded_bytes().starts_with(b"-"))
}

fn shown(values: &Values) -> Result<Shown, String> {
    let title = values.get(TITLE).copied().unwrap_or(OsStr::new(UNTITLED));
    let (first, last) = (line(values, FROM, 1)?, line(values, TO, u64::MAX)?);
    if last < first {
        return Err(format!("{TO} {last} is before {FROM} {first}"));
    }
    Ok(Shown {
        title: title.as_encoded_bytes().to_vec(),
        lines: first..=last,
        on: values.get(ON).map(PathBuf::from),
    })
}

/// The line that an option names, or this one.
fn line(values: &Values, name: &str, otherwise: u64) -> Result<u64, String> {
    let Some(value) = values.get(name) else {
        return Ok(otherwise);
    };
    let line = value.to_str().and_then(number).filter(|&line| line > 0);
    line.ok_or(format!("{name} takes the number of a line, from 1 on"))
}
