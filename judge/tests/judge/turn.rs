//! Order 7, sentence by sentence: the group that C names, and that nothing else comes of it.

use judge::memory;
use judge::node::{Event, Node, Operation, Report};
use judge::script;

use crate::support::{after, memory_after, pages, random_runs, step, Case, ACCEPTED, S0};

const UNREADABLE: &str = "2,0,0,0,0";

/// The report of a C, and that it leaves the node as it was.
fn turn(node: &Node) -> Report {
    let mut same = node.clone();
    let report = same.step(&Operation::Turn);
    assert_eq!(same, *node);
    report
}

/// The group that a C names behind these lines.
fn named(lines: &str) -> u32 {
    turn(&after(lines)).value
}

#[test]
fn c_has_no_field() {
    let mut case = Case::new();
    for line in "C, C,0 C,1 C,1,1 C,x c c,1 CC CS,1 SC".split(' ') {
        case = case.line(line, UNREADABLE);
    }
    case.line("C", ACCEPTED).check();
}

/// "Operation C, whoever runs"
#[test]
fn c_is_accepted_whoever_runs() {
    let mut case = Case::new().line("A,4,7", "0,0,0,0,1");
    for runner in ["S,0", "S,3", "S,5", "O", "I,6"] {
        case = case.quiet(runner).line("C", "0,4,0,0,0");
    }
    case.check();
}

/// "the first group after the running one, upward and round from 8 to 1, the running one last": for every
/// runner, nobody too, and every choice of groups that have mail.
#[test]
fn c_names_the_first_with_mail_in_the_order_after_the_running_one() {
    for set in 0..256_u32 {
        let has_mail = |group: u32| set & 1 << (group - 1) != 0;
        let arrivals: String = (1..=8)
            .filter(|&group| has_mail(group))
            .map(|group| format!("A,{group},7\n"))
            .collect();
        for runner in 0..=8 {
            let script = format!("{arrivals}S,{runner}\n");
            let node = script::node_after(script.as_bytes());
            let after_it = (runner + 1..=8).chain(1..=runner);
            let first = after_it.into_iter().find(|&group| has_mail(group));
            assert_eq!(turn(&node).value, first.unwrap_or(0), "{script}");
        }
    }
}

#[test]
fn the_running_one_comes_last() {
    Case::new()
        .quiet("S,4")
        .line("A,4,1", "0,0,0,4,0")
        .line("C", "0,4,0,0,0")
        .quiet("A,3,1")
        .line("C", "0,3,0,0,0")
        .quiet("A,5,1")
        .line("C", "0,5,0,0,0")
        .check();
}

#[test]
fn without_mail_it_is_0() {
    for lines in ["", "S,1", "S,8", "A,1,7 S,1 D", "A,8,7 S,8 D O"] {
        assert_eq!(named(lines), 0, "{lines}");
    }
}

/// "With nobody running it starts at 1."
#[test]
fn with_nobody_running_it_starts_at_1() {
    assert_eq!(named("A,1,7 A,2,7 A,8,7"), 1);
    assert_eq!(named("A,8,7 A,2,7"), 2);
    assert_eq!(named("S,3 A,1,7 A,3,7 A,4,7 O"), 1);
    assert_eq!(named("A,8,7"), 8);
}

/// A line is the buffer and then what is queued, so a message behind the head is mail too.
#[test]
fn queued_messages_are_mail() {
    let queued = "S,3 A,3,1 A,8,1 A,1,1";
    let node = after(queued);
    assert!(node.groups.iter().all(|group| group.buffer.messages == 0));
    assert_eq!(turn(&node).value, 8);
    assert_eq!(named(&format!("{queued} A,4,1")), 4);
    assert_eq!(named("S,3 A,3,1"), 3);
}

/// A revoked group "counts as buffered, empty or not", and yet its line is empty.
#[test]
fn a_revoked_group_without_messages_has_no_mail() {
    assert_eq!(named("S,1 B,1 T,256"), 0);
    assert_eq!(named("S,1 B,1 T,256 S,2"), 0);
    assert_eq!(named("S,1 B,1 T,256 A,1,7"), 1);
}

/// Used-up places are no mail: of group 1's page the first is.
#[test]
fn the_messages_of_a_page_are_mail_until_the_last_is_disposed_of() {
    assert_eq!(named("A,1,1 A,1,2 S,1 D"), 1);
    assert_eq!(named("A,1,1 A,1,2 S,1 D D"), 0);
}

/// And C brings nothing in.
#[test]
fn messages_in_swap_are_mail() {
    let lines = "A,2,5 257*A,1,7 S,1";
    let node = after(lines);
    assert_eq!(*pages(&node, 2), [S0]);
    assert_eq!(turn(&node).value, 2);
    let memory = memory_after(lines);
    let told = memory::paging(&memory);
    assert_eq!(memory::paging(&memory_after(&format!("{lines} C"))), told);
}

/// "C changes nothing": the timer, flags, pending and the queue are the same behind it, and so is memory,
/// word for word.
#[test]
fn c_changes_nothing() {
    for lines in [
        "S,1 A,1,7 A,2,8 T,200",
        "S,1 B,1 T,200",
        "S,1 B,1 T,256 A,1,7",
        "S,1 A,1,7 O",
        "257*A,1,7 S,1 P,5",
    ] {
        let node = after(lines);
        assert_eq!(step(&node, "C"), node, "{lines}");
        let memory = memory_after(lines);
        assert!(memory_after(&format!("{lines} C")) == memory, "{lines}");
    }
}

/// Wherever it stands in a run: no trap, no upcall, nothing moved, nothing sent and no head that leaves,
/// and the node as it was.
#[test]
fn nothing_else_comes_of_c() {
    for run in random_runs(1, 1000) {
        let mut node = Node::power_on();
        for operation in run {
            node.step(&operation);
            let report = turn(&node);
            let Report { value, events, .. } = report.clone();
            let told = Report {
                value,
                events,
                ..Report::default()
            };
            assert_eq!(report, told);
        }
    }
}

#[test]
fn what_is_met_where_c_looks_for_mail() {
    let events = |lines: &str| turn(&after(lines)).events;
    assert_eq!(events(""), [Event::TurnOfNobody, Event::NoMail]);
    assert_eq!(events("S,1"), [Event::NoMail]);
    assert_eq!(events("A,3,7"), [Event::TurnOfNobody]);
    assert_eq!(events("A,3,7 S,2"), []);
    assert_eq!(events("A,3,7 S,3"), [Event::OwnMail]);
    assert_eq!(events("A,3,7 S,4"), [Event::MailRound]);
    assert_eq!(events("A,3,7 S,8"), [Event::MailRound]);
    assert_eq!(events("S,3 A,3,7"), [Event::OwnMail, Event::MailQueued]);
    assert_eq!(events("S,3 A,3,7 A,4,8"), [Event::MailQueued]);
    let round = [Event::MailRound, Event::MailQueued];
    assert_eq!(events("S,3 A,3,7 A,1,8"), round);
    assert_eq!(events("A,4,7 S,3 A,3,7 A,4,8"), []);
    assert_eq!(events("A,2,5 257*A,1,7 S,1"), [Event::MailInSwap]);
    assert_eq!(
        events("A,2,5 257*A,1,7 S,2"),
        [Event::MailRound, Event::MailInSwap]
    );
    assert_eq!(events("A,2,5 256*A,1,7 S,3"), [Event::MailRound]);
}
