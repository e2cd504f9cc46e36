//! The random scripts: fixed by their seed, and leading where their flavour says.

use std::io;

use judge::counts::Counts;
use judge::generator::{Flavour, FLAVOURS};
use judge::random::Random;
use judge::script;

#[test]
fn splitmix64_gives_its_known_numbers() {
    let mut random = Random::new(1_234_567);
    let drawn: Vec<u64> = (0..5).map(|_| random.draw()).collect();
    let known = [
        6_457_827_717_110_365_317,
        3_203_168_211_198_807_973,
        9_817_491_932_198_370_423,
        4_593_380_528_125_082_431,
        16_408_922_859_458_223_821,
    ];
    assert_eq!(drawn, known);
}

#[test]
fn a_seed_fixes_every_byte() {
    for flavour in &FLAVOURS {
        assert_eq!(flavour.script(7, 500), flavour.script(7, 500));
        assert_ne!(flavour.script(7, 500), flavour.script(8, 500));
    }
}

#[test]
fn a_script_has_as_many_lines_as_asked_for() {
    for flavour in &FLAVOURS {
        for lines in [0, 1, 2, 17, 300] {
            let mut met = 0;
            let script = flavour.script(lines, lines);
            script::run(script.as_slice(), |_, _| {
                met += 1;
                Ok::<(), io::Error>(())
            })
            .expect("memory is read without error");
            assert_eq!(met, lines, "{}", flavour.name);
        }
    }
}

/// The flavours' scripts of so many lines together, or one's.
fn counts(flavours: &[Flavour], lines: u64) -> Counts {
    let mut counts = Counts::default();
    for flavour in flavours {
        let script = flavour.script(1, lines);
        counts
            .add_script(script.as_slice())
            .expect("memory is read without error");
    }
    counts
}

fn named(name: &str) -> &'static Flavour {
    Flavour::named(name).expect("a flavour of this name")
}

#[test]
fn all_flavours_together_meet_everything() {
    assert_eq!(counts(&FLAVOURS, 2000).missing(), Vec::<String>::new());
}

/// Each flavour is there for some answers, traps and events; it meets them alone.
#[test]
fn each_flavour_meets_what_it_is_for() {
    let purposes = [
        (
            "uniform",
            "trap 1, trap 2, trap 3, answer 7, turns with nobody running, turns to a group behind 8",
        ),
        (
            "direct",
            "trap 0, answer 8, words read in the hardware queue",
        ),
        ("arrivals", "answer 3, answer 4, answer 5, answer 6"),
        (
            "swap",
            "pages sent out, pages brought in to be written, pages exchanged to be written, first \
             pages brought in by D, first pages brought in by I, first pages exchanged by I, new \
             runners' first pages sent out by their S, turns to a group with its first page in swap",
        ),
        (
            "swaptime",
            "trap 3, pages sent out, pages exchanged to be written, first pages exchanged by I, new \
             runners' first pages sent out by their S",
        ),
        (
            "switches",
            "answer 14, answer 16, processors taken with messages queued, switches of two acts, \
             switches to the one running with messages queued, turns with nobody running, turns with \
             no mail, turns to the running one that alone has mail, turns to a group behind 8, turns \
             to a group with queued mail alone",
        ),
        (
            "acts",
            "answer 14, answer 16, processors taken with messages queued, processors taken with \
             nobody running, forced timers that O met, switches of two acts, turns with nobody \
             running, turns with no mail, turns to the running one that alone has mail, turns to a \
             group behind 8, turns to a group with queued mail alone",
        ),
        ("ticks", "answer 15, trap 3"),
        (
            "force",
            "trap 1, trap 2, trap 3, timeouts with an empty queue, timeouts behind one of the same \
             T, forced timers that settling left, forced timers that N took back, processors given \
             to a group with force, messages moved for revoked alone, ends of an empty group revoked, \
             forced timers that O met",
        ),
        ("bad", "answer 2"),
        ("hogs", "answer 10, trap 3"),
        (
            "disposals",
            "answer 8, answer 9, trap 1, trap 2, words read in a page's first place, words read \
             behind used-up places, places used up in a page that stays, pages used up with messages \
             left, buffers emptied",
        ),
        ("launches", "answer 11, answer 12, answer 13"),
        (
            "mixed",
            "answer 2, answer 5, answer 16, trap 1, trap 2, trap 3, pages sent out, first pages \
             brought in by D, timeouts with an empty queue, messages moved for revoked alone, \
             processors taken with messages queued, turns with no mail",
        ),
    ];
    assert_eq!(purposes.len(), FLAVOURS.len());
    for (name, purpose) in purposes {
        let missing = counts(std::slice::from_ref(named(name)), 4000).missing();
        for met in purpose.split(", ") {
            assert!(!missing.contains(&met.to_string()), "{name}: {met}");
        }
    }
}

#[test]
fn nothing_met_is_all_missing() {
    let missing = Counts::default().missing();
    assert_eq!(missing.len(), 15 + 4 + 3 + 3 + 6 + 7 + 6 + 6);
    assert_eq!(missing[0], "answer 2");
    assert_eq!(missing[18], "trap 3");
    assert_eq!(missing[19], "words read in the hardware queue");
    assert_eq!(missing[22], "places used up in a page that stays");
    assert_eq!(missing[25], "pages sent out");
    assert_eq!(missing[31], "timeouts with an empty queue");
    assert_eq!(missing[38], "processors taken with messages queued");
    assert_eq!(missing[44], "turns with nobody running");
}

#[test]
fn bad_scripts_have_over_long_lines_odd_bytes_and_no_last_newline() {
    let script = named("bad").script(1, 2000);
    let lines: Vec<&[u8]> = script.split(|&byte| byte == b'\n').collect();
    for length in [0, 128, 129] {
        assert!(lines.iter().any(|line| line.len() == length), "{length}");
    }
    assert!(lines.iter().any(|line| line.len() > 1000));
    for byte in [0, b'\r', b' ', 0x80, 0xff] {
        assert!(script.contains(&byte), "{byte}");
    }
    assert_ne!(script.last(), Some(&b'\n'));
}

#[test]
fn good_flavours_have_readable_lines_only() {
    for flavour in FLAVOURS
        .iter()
        .filter(|f| !["bad", "mixed"].contains(&f.name))
    {
        let missing = counts(std::slice::from_ref(flavour), 2000).missing();
        assert!(
            missing.contains(&"answer 2".to_string()),
            "{}",
            flavour.name
        );
    }
}
