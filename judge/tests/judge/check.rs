//! Why lines can't be read: in the words of docs/LISTING.md, and exactly where the answer is 2.

use std::collections::HashSet;
use std::fs;
use std::mem::discriminant;

use judge::check::check;
use judge::generator::FLAVOURS;
use judge::node::Refusal;
use judge::script::{self, readable, Unreadable};

use crate::support::vectors;

const LISTING: &str = include_str!("../../../docs/LISTING.md");

/// The rows of the table of unreadable lines: a line, and why it is one.
fn table() -> Vec<(Vec<u8>, &'static str)> {
    let head = "| line | why it is unreadable |\n|---|---|\n";
    let (_, table) = LISTING.split_once(head).expect("the table");
    let rows = table.lines().take_while(|row| row.starts_with('|'));
    let rows = rows.map(|row| {
        let cells: Vec<&str> = row.split('|').map(str::trim).collect();
        (line_of(cells[1]), cells[2])
    });
    rows.collect()
}

/// The line that a cell of the table tells of.
fn line_of(cell: &str) -> Vec<u8> {
    match cell {
        "(empty)" => return Vec::new(),
        "any line of 129 bytes or more" => return vec![b'M'; 129],
        _ => (),
    }
    let (_, cell) = cell.split_once('`').expect("a line in the cell");
    let (line, more) = cell.split_once('`').expect("the line's end");
    let (before, behind) = match more {
        "" => ("", ""),
        " and a carriage return" => ("", "\r"),
        " and a NUL" => ("", "\0"),
        " behind a byte order mark" => ("\u{feff}", ""),
        _ => panic!("{more}"),
    };
    [before, line, behind].concat().into_bytes()
}

#[test]
fn every_row_of_the_table_has_its_words() {
    let mut last = "";
    for (line, why) in table() {
        let shown = script::shown(&line);
        let told = readable(&line).expect_err(&shown).why.to_string();
        let words = if why == "the same" { last } else { why };
        assert!(words.contains(&told), "{shown}: {told}: {words}");
        last = words;
    }
}

/// All reasons: the compiler asks for a new one here.
fn number_of(why: Unreadable) -> usize {
    match why {
        Unreadable::Empty => 0,
        Unreadable::TooLong => 1,
        Unreadable::ByteOrderMark => 2,
        Unreadable::CarriageReturn => 3,
        Unreadable::Blank => 4,
        Unreadable::Nul => 5,
        Unreadable::SmallLetter => 6,
        Unreadable::NoOperation => 7,
        Unreadable::NoGroup => 8,
        Unreadable::TooFewFields => 9,
        Unreadable::TooManyFields => 10,
        Unreadable::NoForce => 11,
        Unreadable::EmptyField => 12,
        Unreadable::Sign => 13,
        Unreadable::Digits(_) => 14,
        Unreadable::TooLarge => 15,
        Unreadable::BadNumber => 16,
    }
}

#[test]
fn every_reason_has_its_row() {
    let rows = table().into_iter();
    let whys = rows.map(|(line, _)| readable(&line).expect_err("no operation").why);
    let numbers: HashSet<usize> = whys.map(number_of).collect();
    assert_eq!(numbers, (0..17).collect());
}

/// The first fault of a line is told, a wrong letter before all else.
#[test]
fn a_line_with_several_faults_has_one_reason() {
    let cases: [(&[u8], Option<usize>, &str); 24] = [
        (b"m,x", Some(1), "the operations are capital letters"),
        (b"q", Some(1), "no such operation"),
        (b"MM", Some(1), "no such operation"),
        (b",1", Some(1), "no such operation"),
        (b"\t", Some(1), "no such operation"),
        (b"M\r", Some(1), "a carriage return"),
        (b"\r", Some(1), "a carriage return"),
        (b" M", Some(1), "a blank"),
        (b"\0S\0,\x001", Some(1), "a NUL"),
        (b"\xff\xfeS\0,\x001\0", Some(1), "a byte order mark"),
        (b"\xfe\xff\0S\0,\x001", Some(1), "a byte order mark"),
        (b"M,0\r", Some(2), "a carriage return"),
        (b"S,-1\r", Some(2), "a carriage return"),
        (b"S,1,x", Some(3), "a bad number"),
        (b"S,1,2", None, "too many fields"),
        (b"B,1,2", None, "too many fields"),
        (b"B,", Some(2), "an empty field"),
        (b"S,-", Some(2), "a bad number"),
        (b"S,+7", Some(2), "a sign"),
        (b"S,--7", Some(2), "a bad number"),
        (b"S,99999999999999999999", Some(2), "20 digits"),
        (b"S,9999999999", Some(2), "above 4,294,967,295"),
        (b"A,1,1\t", Some(3), "a bad number"),
        (b"A,1,\xd9\xa3", Some(3), "a bad number"),
    ];
    for (line, field, why) in cases {
        let refused = readable(line).expect_err("no operation");
        let told = (refused.field, refused.why.to_string());
        assert_eq!(told, (field, why.to_string()), "{}", script::shown(line));
    }
}

/// The lines of a script that have a reason are those that its listing answers with 2. Hands back the
/// reasons.
fn reasons(script: &[u8]) -> Vec<Unreadable> {
    let mut whys = Vec::new();
    script::run(script, |line, report| {
        let answered = report.answer == Refusal::Unknown as u32;
        let refused = readable(line).err();
        assert_eq!(refused.is_some(), answered, "{}", script::shown(line));
        whys.extend(refused.map(|refused| refused.why));
        Ok::<(), std::io::Error>(())
    })
    .expect("memory is read without error");
    whys
}

#[test]
fn a_line_has_a_reason_exactly_where_it_is_answered_with_2() {
    let scripts = vectors().into_iter();
    let scripts = scripts.map(|path| fs::read(path).expect("a script"));
    let count: usize = scripts.map(|script| reasons(&script).len()).sum();
    assert!(count > 500, "{count}");
    for flavour in &FLAVOURS {
        reasons(&flavour.script(7, 2000));
    }
}

/// All but byte order marks, which the generator does not make.
#[test]
fn bad_lines_meet_every_reason() {
    let bad = FLAVOURS.iter().find(|flavour| flavour.name == "bad");
    let whys = reasons(&bad.expect("the flavour").script(7, 20_000));
    let met: HashSet<_> = whys.into_iter().map(|why| discriminant(&why)).collect();
    assert_eq!(met.len(), 16);
}

/// What is told of a script.
fn told(script: &[u8]) -> String {
    let mut output = Vec::new();
    check(script, &mut output).expect("memory is read and written without error");
    String::from_utf8(output).expect("text")
}

#[test]
fn every_bad_line_is_told_with_its_number() {
    let script = FLAVOURS[0].script(3, 50);
    assert_eq!(told(&script), "50 lines, all can be read\n");
    let long = [b"A,1".as_slice(), &b",7".repeat(100), b"\nM\n"].concat();
    let shown = format!("A,1{},..", ",7".repeat(62));
    let bytes = b"S,\x01\xff\"\\\nM";
    for (script, expected) in [
        (
            long.as_slice(),
            format!("line 1: too long: {shown}\n2 lines, 1 of them can't be read\n"),
        ),
        (
            bytes,
            "line 1, field 2: a bad number: S,\\x01\\xff\\\"\\\\\n2 lines, 1 of them can't be read\n"
                .to_string(),
        ),
        (
            b"\n",
            "line 1: an empty line\n1 line, none can be read\n".to_string(),
        ),
    ] {
        assert_eq!(told(script), expected);
    }
}

/// The last lines of what is told: of the file.
fn of_the_file(script: &[u8]) -> Vec<String> {
    let told = told(script);
    let lines = told.lines().skip_while(|line| line.starts_with("line "));
    lines.map(str::to_string).collect()
}

#[test]
fn a_file_of_windows_is_told_with_its_remedy() {
    let returns = "2 of 2 lines end in a carriage return, as Windows writes them";
    assert_eq!(
        of_the_file(b"S,1\r\nM\r\n"),
        [
            "2 lines, none can be read",
            returns,
            "to mend it: tr -d '\\r' < SCRIPT > MENDED",
        ]
    );
    assert_eq!(
        of_the_file(b"\xef\xbb\xbfS,1\r\nM\r\n"),
        [
            "2 lines, none can be read",
            "it begins with a byte order mark",
            returns,
            "to mend it: tail -c +4 < SCRIPT | tr -d '\\r' > MENDED",
        ]
    );
    assert_eq!(
        of_the_file(b"\xef\xbb\xbfS,1\nM\n"),
        [
            "2 lines, 1 of them can't be read",
            "it begins with a byte order mark",
            "to mend it: tail -c +4 < SCRIPT > MENDED",
        ]
    );
    assert_eq!(
        of_the_file(b"S,1\nM\r\nD")[1],
        "1 of 3 lines end in a carriage return, as Windows writes them"
    );
}

#[test]
fn a_file_in_utf_16_is_told() {
    let text = "\u{feff}S,1\r\nM\r\n";
    let low_first: Vec<u8> = text.encode_utf16().flat_map(u16::to_le_bytes).collect();
    let high_first: Vec<u8> = text.encode_utf16().flat_map(u16::to_be_bytes).collect();
    // With the low byte first the other half of the last newline is a line of its own.
    for (script, lines) in [(low_first, 3), (high_first, 2)] {
        let told = of_the_file(&script);
        assert_eq!(told[0], format!("{lines} lines, none can be read"));
        assert_eq!(told[1], "it is UTF-16");
        let mended = "to mend it: iconv -f UTF-16 -t UTF-8 < SCRIPT | tr -d '\\r' > MENDED";
        assert_eq!(told[3], mended);
    }
}

#[test]
fn a_file_without_newlines_is_told() {
    for script in [b"S,1\rA,1,7\rD".as_slice(), b"S,1\rA,1,7\rD\r"] {
        assert_eq!(
            of_the_file(script),
            [
                "1 line, none can be read",
                "its lines end in carriage returns alone, as old Macintoshes wrote them",
                "to mend it: tr '\\r' '\\n' < SCRIPT > MENDED",
            ]
        );
    }
}

#[test]
fn the_examples_of_the_document_are_told_so() {
    let told_lines = told(b"S, 1\na,1,7\nA,1,7\nE\n");
    for line in told_lines.lines() {
        assert!(LISTING.contains(&format!("`{line}`")), "{line}");
    }
    let windows = of_the_file(b"\xef\xbb\xbfS,1\r\nM\r\n").join("\n");
    assert!(LISTING.contains(&format!("\n{windows}\n")), "{windows}");
}
