//! Every reason of a script in one pass: the rows of the vectors as text, whatever the portions and the output; the
//! state in lent words; and what is too short.

use std::fs;

use fugu::{
    calls, why_all, Reason, Reasons, Why, SIZE, TELL, TELL_END, TELL_KEPT, TELL_LINE, TELL_OUT,
    TELL_STATE,
};

use crate::support::{no_line_numbers_left, scripts, started, too_short, Lent, BEFORE};

/// The words of the vectors' rows that have a reason, as lines of text.
fn text(rows: &str) -> String {
    let mut text = String::new();
    for row in rows.lines() {
        let fields: Vec<_> = row.split(' ').collect();
        if let [arrival, "reason", reason, "line", line] = fields[..] {
            let reason = Reason::ALL[reason.parse::<usize>().expect("a number") - 1];
            let line = line.parse().expect("a number");
            text += &format!("line {arrival}: {}\n", Why { reason, line });
        }
    }
    text
}

/// Every script of the vectors with the text that is to be told of it.
fn told() -> Vec<(String, Vec<u8>, String)> {
    let read = scripts().into_iter().map(|path| {
        let script = fs::read(&path).expect("a script");
        let rows = fs::read_to_string(path.with_extension("why")).expect("its rows");
        (path.display().to_string(), script, text(&rows))
    });
    read.collect()
}

/// A portion, by calls with an output of so many bytes, and how many calls it took.
fn feed(lent: &mut Lent, mut portion: &[u8], room: usize, told: &mut Vec<u8>) -> usize {
    for count in 1.. {
        let mut out = vec![0; room];
        let [stop, written, used] = lent.portion(calls::tell, portion, &mut out);
        told.extend_from_slice(&out[..written]);
        portion = &portion[used..];
        match stop {
            0 => {
                assert!(portion.is_empty());
                return count;
            }
            1 => assert!(written + TELL_LINE > room && !portion.is_empty()),
            _ => panic!("there are line numbers enough"),
        }
    }
    unreachable!()
}

/// The text of the script's end.
fn finish(lent: &mut Lent, told: &mut Vec<u8>) {
    let mut out = [0; TELL_OUT];
    let [stop, written] = lent.end(calls::tell_end, &mut out);
    assert_eq!(stop, 0);
    told.extend_from_slice(&out[..written]);
}

#[test]
fn every_row_of_the_vectors_as_text() {
    let mut lines = 0;
    for (path, script, expected) in told() {
        assert_eq!(
            String::from_utf8_lossy(&why_all(&script)),
            expected,
            "{path}"
        );
        lines += expected.lines().count();
    }
    assert_eq!(lines, 819);
}

#[test]
fn whatever_the_portions() {
    for (path, script, expected) in told() {
        for size in [1, 7, 4096] {
            let mut told = Vec::new();
            let mut reasons = Reasons::new();
            for portion in script.chunks(size) {
                reasons.feed(portion, &mut told).expect("memory");
                reasons.feed(b"", &mut told).expect("memory");
            }
            reasons.finish(&mut told).expect("memory");
            assert!(told == expected.as_bytes(), "{path} by {size}");
        }
    }
}

#[test]
fn whatever_the_output() {
    for (path, script, expected) in told() {
        for room in [TELL_LINE, TELL_LINE + 1, 3 * TELL_LINE] {
            let mut lent = Lent::new(TELL_STATE);
            let mut told = Vec::new();
            let calls = feed(&mut lent, &script, room, &mut told);
            assert!(
                room > 2 * TELL_LINE || calls > expected.len() / room,
                "{path}"
            );
            finish(&mut lent, &mut told);
            assert!(told == expected.as_bytes(), "{path} into {room}");
        }
    }
}

#[test]
fn the_state_by_its_words() {
    let mut lent = Lent::new(TELL_STATE);
    let mut told = Vec::new();
    feed(&mut lent, b"S,1\nA,1,7\n?\nA,2,5\nA,1", TELL_OUT, &mut told);
    assert!(told.is_empty());
    assert_eq!(lent.state[..5], [4, 3, 2, 2, 4]);
    assert_eq!(lent.kept[..3], *b"A,1");
    feed(&mut lent, b",8\nD\n", TELL_OUT, &mut told);
    assert_eq!(lent.state[..3], [6, 0, 1]);
    assert_eq!(lent.state[3], 5);
    finish(&mut lent, &mut told);
    assert_eq!(told, why_all(b"S,1\nA,1,7\n?\nA,2,5\nA,1,8\nD"));
}

#[test]
fn no_room_for_a_line_uses_none() {
    let mut lent = Lent::new(TELL_STATE);
    let before = lent.clone();
    for room in [0, 1, TELL_LINE - 1] {
        assert_eq!(
            lent.portion(calls::tell, b"S,1\n", &mut vec![0; room]),
            [1, 0, 0]
        );
        assert_eq!(lent, before);
        assert_eq!(lent.end(calls::tell_end, &mut vec![0; room]), [1, 0]);
    }
    assert_eq!(lent.end(calls::tell_end, &mut [0; TELL_OUT - 1]), [1, 0]);
    assert_eq!(lent, before);
    // A line that has only begun takes none.
    assert_eq!(lent.portion(calls::tell, b"S,1", &mut []), [0, 0, 3]);
}

#[test]
fn no_line_numbers_left_use_none() {
    no_line_numbers_left(TELL_STATE, calls::tell, calls::tell_end, TELL_OUT);
}

#[test]
fn counts_too_large_are_the_room_there_is() {
    let mut lent = Lent::new(TELL_STATE);
    lent.state = vec![u64::MAX; TELL_STATE];
    lent.state[0] = 7;
    lent.kept = vec![b'A'; TELL_KEPT];
    let mut out = [0; TELL_OUT];
    let [stop, written] = lent.end(calls::tell_end, &mut out);
    assert_eq!(stop, 0);
    let line = format!(
        "line {}: reason 2 at line 8: still in the hardware queue\n",
        u64::MAX
    );
    assert_eq!(String::from_utf8_lossy(&out[..written]), line.repeat(16));
}

#[test]
fn what_is_too_short_changes_nothing() {
    too_short(
        &[9; SIZE],
        TELL_STATE,
        calls::tell,
        calls::tell_end,
        TELL_OUT,
    );
}

#[test]
fn what_stands_behind_stays() {
    let mut memory = started().into_memory();
    let mut state = vec![0; TELL_STATE + 2];
    state[TELL_STATE..].fill(BEFORE);
    let mut kept = vec![0; TELL_KEPT + 2];
    kept[TELL_KEPT..].fill(9);
    let mut out = [9; TELL_OUT];
    let mut part = [BEFORE; TELL + 2];
    let told = calls::tell(
        &mut memory,
        &mut state,
        &mut kept,
        b"A,1,7\nA",
        &mut out,
        &mut part,
    );
    assert_eq!(told as usize, TELL);
    let text = b"line 1: reason 3 at line 1: its group wasn't running when it became head\n";
    assert_eq!(part, [0, text.len() as u64, 7, BEFORE, BEFORE]);
    assert_eq!(out[..text.len()], *text);
    assert_eq!(state[TELL_STATE..], [BEFORE; 2]);
    assert_eq!(kept[TELL_KEPT..], [9; 2]);
    let mut part = [BEFORE; TELL_END + 1];
    let told = calls::tell_end(&mut memory, &state, &kept, &mut out, &mut part);
    assert_eq!(told as usize, TELL_END);
    assert_eq!(part, [0, 0, BEFORE]);
}
