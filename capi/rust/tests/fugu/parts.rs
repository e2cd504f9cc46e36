//! The part that a call tells in: too short, long enough, and longer.

use fugu::{calls, HEAD, REPORT, SIZE};

use crate::support::after;

/// A call that takes a step, by its name.
type Stepping = (&'static str, fn(&mut [u32], &mut [u32]) -> u32);

const STEPPING: [Stepping; 3] = [
    ("power_on", |memory, report| calls::power_on(memory, report)),
    ("step", |memory, report| {
        calls::step(memory, b'S', &[2], report)
    }),
    ("line", |memory, report| calls::line(memory, b"S,2", report)),
];

/// What stands in a part before a call.
const BEFORE: u32 = 0xdead_beef;

#[test]
fn a_part_too_short_changes_nothing() {
    let before = after(&["S,1", "A,1,7"]).into_memory();
    for (name, call) in STEPPING {
        for length in 0..REPORT {
            let mut memory = before.clone();
            let mut part = vec![BEFORE; length];
            assert_eq!(
                call(&mut memory, &mut part),
                0,
                "{name} with {length} words"
            );
            assert_eq!(memory, before, "{name} with {length} words");
            assert_eq!(part, vec![BEFORE; length], "{name} with {length} words");
        }
    }
}

#[test]
fn a_part_too_short_comes_before_every_refusal() {
    for (name, call) in STEPPING {
        let mut memory = vec![9; SIZE - 1];
        assert_eq!(call(&mut memory, &mut [BEFORE; REPORT - 1]), 0, "{name}");
        assert_eq!(memory, vec![9; SIZE - 1], "{name}");
    }
}

#[test]
fn a_longer_part_keeps_what_stands_behind() {
    let before = after(&["S,1", "A,1,7"]).into_memory();
    for (name, call) in STEPPING {
        for length in REPORT..2 * REPORT {
            let mut memory = before.clone();
            let mut part = vec![BEFORE; length];
            assert_eq!(call(&mut memory, &mut part) as usize, REPORT, "{name}");
            assert_ne!(memory, before, "{name}");
            assert!(part[..REPORT].iter().all(|&word| word != BEFORE), "{name}");
            assert!(part[REPORT..].iter().all(|&word| word == BEFORE), "{name}");
        }
    }
}

#[test]
fn each_number_has_its_place() {
    let mut memory = after(&["S,1", "A,1,7", "A,2,8", "D", "P,5", "P,6"]).into_memory();
    let mut part = [BEFORE; REPORT];
    calls::line(&mut memory, b"L,63", &mut part);
    assert_eq!(part, [0, 2, 0, 0, 0, 63, 1, 2, 5, 6, 0, 0, 0, 0, 0, 0]);
    calls::step(&mut memory, b'S', &[2], &mut part);
    assert_eq!(part, [0, 0, 0, 2, 0, 0, 0, 0, 0, 0, 0, 0, 0, 0, 0, 0]);
    calls::step(&mut memory, b'D', &[], &mut part);
    assert_eq!(part, [0, 0, 1, 0, 0, 0, 0, 0, 0, 0, 0, 0, 0, 0, 0, 0]);

    let mut memory = after(&["S,1", "A,1,7", "A,2,8"]).into_memory();
    calls::line(&mut memory, b"T,256", &mut part);
    assert_eq!(part[..5], [0, 0, 3, 0, 2]);
}

#[test]
fn a_part_too_short_for_the_head() {
    let memory = after(&["S,1", "A,1,7"]).into_memory();
    assert_eq!(calls::head(&memory, &mut []), 0);
    let mut part = [BEFORE];
    assert_eq!(calls::head(&memory, &mut part), 0);
    assert_eq!(part, [BEFORE]);
    let mut part = [BEFORE; 4];
    assert_eq!(calls::head(&memory, &mut part) as usize, HEAD);
    assert_eq!(part, [6, 1, BEFORE, BEFORE]);
}
