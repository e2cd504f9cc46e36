//! The comparison of reasons: wrong ones are found, and the table counts each kind of answer.

use std::collections::BTreeSet;

use judge::why::answer;
use trials::why::{table_of, told, Proved, Reasons, Table, Told};

/// The judge, asked for one line alone.
struct Judged;

impl Reasons for Judged {
    fn why(&self, script: &[u8], line: u32) -> Told {
        told(answer(script, line.into()).expect("memory is read without error"))
    }
}

/// The right answers, and what is done to them.
struct Wrong<F>(F);

impl<F: Fn(u32, &mut Told)> Reasons for Wrong<F> {
    fn why(&self, script: &[u8], line: u32) -> Told {
        let mut told = Judged.why(script, line);
        (self.0)(line, &mut told);
        told
    }
}

/// The first difference within 140 scripts of seed 1, as it is told.
fn first_difference(reasons: &impl Reasons) -> Option<String> {
    table_of(reasons, 140, 1, |_, _| ()).err()
}

#[test]
fn the_right_answers_agree() {
    assert_eq!(first_difference(&Proved), None);
    assert_eq!(first_difference(&Judged), None);
    assert_eq!(first_difference(&Wrong(|_, _: &mut Told| ())), None);
}

/// Each answer, where it is met, is another one.
#[test]
fn a_wrong_answer_is_found() {
    for (right, wrong) in [
        ([0, 1], [0, 7]),
        ([0, 2], [17, 0]),
        ([0, 3], [0, 4]),
        ([0, 4], [0, 5]),
        ([0, 5], [0, 4]),
        ([0, 6], [0, 3]),
        ([0, 7], [0, 3]),
        ([2, 0], [17, 0]),
        ([17, 0], [2, 0]),
        ([17, 0], [17, 1]),
    ] {
        let changed = Wrong(move |_, told: &mut Told| {
            if told[..2] == right {
                told[..2].copy_from_slice(&wrong);
            }
        });
        let difference = first_difference(&changed).expect("a difference");
        let [answer, reason] = right;
        let judged = format!(": answer, reason, line: judge [{answer}, {reason}, ");
        assert!(difference.contains(&judged), "{difference}");
        let [answer, reason] = wrong;
        let library = format!("library [{answer}, {reason}, ");
        assert!(difference.contains(&library), "{difference}");
    }
}

#[test]
fn a_wrong_line_is_found() {
    for reason in 1..=7 {
        for word in [2, 3] {
            let later = Wrong(move |_, told: &mut Told| told[word] += u32::from(told[1] == reason));
            assert!(first_difference(&later).is_some(), "{reason}, word {word}");
        }
    }
}

#[test]
fn a_difference_is_told_with_its_script_and_line() {
    let past = Wrong(|line, told: &mut Told| {
        if line == 151 {
            *told = [2, 0, 0, 0];
        }
    });
    let difference = first_difference(&past).expect("a difference");
    let (script, told) = difference.split_once(" 150 uniform: ").expect("its call");
    assert!(script.starts_with("script 1, bin/scripts "), "{script}");
    assert_eq!(
        told,
        "line 151: answer, reason, line: judge [17, 0, 0, 0], library [2, 0, 0, 0]"
    );
}

/// The kinds of answers that a table has not met.
fn not_met(table: &Table) -> BTreeSet<String> {
    table.not_met().into_iter().collect()
}

/// The lines are parted by blanks; behind every script stands what it meets beside lines 0 and past the last.
#[test]
fn each_kind_is_counted() {
    for (script, kinds) in [
        ("", ""),
        ("?", "refusal 2"),
        ("A,9,7", "refusal 17 of a refused arrival"),
        ("S,1", "refusal 17 of another operation"),
        ("C", "refusal 17 of another operation"),
        ("A,1,7", "reason 3 at its own line"),
        ("S,1 A,1,7", "refusal 17 of another operation, reason 2"),
        ("S,1 A,1,7 D", "refusal 17 of another operation, reason 1"),
        (
            "S,1 A,1,7 A,2,7 D",
            "refusal 17 of another operation, reason 1, reason 3 at a D",
        ),
        (
            "S,1 A,1,7 A,2,7 O",
            "refusal 17 of another operation, reason 7, reason 3 at an O or S",
        ),
        (
            "S,1 A,1,7 A,2,7 S,2",
            "refusal 17 of another operation, reason 7, reason 3 at an O or S",
        ),
        (
            "S,1 A,1,7 T,256 A,1,8",
            "refusal 17 of another operation, reason 6 of a head, reason 4",
        ),
        (
            "S,1 B,1 T,256 A,1,7",
            "refusal 17 of another operation, reason 5",
        ),
        (
            "S,1 A,1,7 A,1,8 A,2,9 T,256",
            "refusal 17 of another operation, reason 6 of a head, reason 6 of one behind a head",
        ),
    ] {
        let mut table = Table::default();
        let mut expected = not_met(&table);
        assert_eq!(expected.len(), 15);
        let lines = script.replace(' ', "\n");
        table.add(&Judged, lines.as_bytes()).expect("no difference");
        let both = [
            "refusal 17 of line 0",
            "refusal 17 of the line past the last",
        ];
        for kind in both.into_iter().chain(kinds.split(", ")) {
            assert!(expected.remove(kind) || kind.is_empty(), "{kind}");
        }
        assert_eq!(not_met(&table), expected, "{script}");
    }
}

#[test]
fn few_scripts_need_not_meet_everything() {
    let mut table = Table::default();
    for _ in 0..139 {
        table.add(&Judged, b"").expect("no difference");
    }
    assert!(table.missing().is_empty());
    table.add(&Judged, b"").expect("no difference");
    assert_eq!(table.missing().len(), 13);
    assert_eq!(table.missing(), table.not_met());
}
