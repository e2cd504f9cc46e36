//! Order 5, sentence by sentence: what O and I do and refuse, and that S is these two.

use judge::memory;
use judge::node::{Cause, Event, Node, Operation, Refusal, Report};
use judge::script;

use crate::support::{after, memory_after, pages, random_runs, step, Case, ACCEPTED, S0};

const UNREADABLE: &str = "2,0,0,0,0";
const NOT_A_GROUP: &str = "14,0,0,0,0";
const ALREADY_RUNS: &str = "16,0,0,0,0";

/// The report of one more line.
fn report(node: &mut Node, line: &str) -> Report {
    node.step(&script::read(line.as_bytes()))
}

/// What one more line meets.
fn events(lines: &str, line: &str) -> Vec<Event> {
    report(&mut after(lines), line).events
}

#[test]
fn o_has_no_field_and_i_has_one() {
    let mut case = Case::new();
    for line in "O, O,1 O,0 o I I, I,1,1 I,1, I,x I,-1 I,00000000001 i,1 OI IO,1".split(' ') {
        case = case.line(line, UNREADABLE);
    }
    case.quiet("O I,1 O I,01 O I,0000000008").check();
}

#[test]
fn the_processor_is_taken_from_whoever_runs() {
    for group in 1..=8 {
        let node = step(&after(&format!("I,{group}")), "O");
        assert_eq!(node, Node::power_on());
    }
    Case::new()
        .quiet("I,3 O")
        .line("M", "7,0,0,0,0")
        .quiet("I,4 M")
        .check();
}

#[test]
fn with_nobody_running_o_changes_nothing() {
    for lines in ["", "A,1,7", "I,1 A,1,7 A,2,8 B,1 T,9 O", "257*A,1,7 I,1 O"] {
        let before = after(lines);
        let mut node = before.clone();
        let taken = Report {
            events: vec![Event::NobodyTaken],
            ..Report::default()
        };
        assert_eq!(report(&mut node, "O"), taken);
        assert_eq!(node, before, "{lines}");
    }
}

#[test]
fn the_processor_is_given_to_1_to_8_and_only_where_nobody_has_it() {
    let mut case = Case::new();
    for group in "0 9 10 256 4294967295".split(' ') {
        case = case.line(&format!("I,{group}"), NOT_A_GROUP);
    }
    case = case.quiet("I,5");
    for group in "0 9 10 256 4294967295".split(' ') {
        case = case.line(&format!("I,{group}"), NOT_A_GROUP);
    }
    for group in 1..=8 {
        case = case.line(&format!("I,{group}"), ALREADY_RUNS);
    }
    case.check();
}

#[test]
fn a_refused_i_changes_nothing() {
    for lines in ["I,1 A,1,7 A,2,8 T,9", "A,1,7 I,1", "I,1 B,1 T,9"] {
        let before = after(lines);
        for (line, refusal) in [
            ("I,2", Refusal::AlreadyRuns),
            ("I,1", Refusal::AlreadyRuns),
            ("I,0", Refusal::ProcessorGroup),
            ("I,9", Refusal::ProcessorGroup),
        ] {
            let mut node = before.clone();
            assert_eq!(report(&mut node, line), Report::refused(refusal));
            assert_eq!(node, before, "{lines} {line}");
        }
    }
}

/// No head may stay where nobody runs.
#[test]
fn o_moves_the_whole_queue() {
    Case::new()
        .quiet("I,1")
        .line("A,1,1", "0,0,0,1,0")
        .quiet("A,2,2 A,3,3 A,2,4 A,1,5")
        .line("O", "0,0,0,0,5")
        .line("I,2", "0,0,0,2,0")
        .line("E,0", "0,2,0,0,0")
        .line("D", "0,0,1,0,0")
        .line("E,0", "0,4,0,0,0")
        .check();
    let node = after("I,1 B 16*A,1,7 O");
    assert!(node.queue.is_empty());
    assert_eq!(node.groups[0].buffer.messages, 16);
}

#[test]
fn o_zeroes_the_timer() {
    for lines in ["I,1 B A,1,7 T,200", "I,1 B,1 T,200", "I,1 B,1 A,1,7 T,200"] {
        let node = after(lines);
        assert_eq!(node.timer, 200, "{lines}");
        let node = step(&node, "O");
        assert_eq!(node.timer, 0, "{lines}");
        assert_eq!(step(&node, "I,1").timer, 0, "{lines}");
    }
}

#[test]
fn flags_and_descriptor_survive_o_and_i() {
    let node = after("I,1 P,5 B,1 T,256 A,1,7");
    let kept = &step(&node, "O").groups;
    assert_eq!(*kept, node.groups);
    let node = step(&step(&node, "O"), "I,1");
    assert_eq!(node.groups, *kept);
    Case::new()
        .quiet("I,1")
        .line("A,1,7", "0,0,0,1,0")
        .line("O", "0,0,0,0,1")
        .quiet("I,1")
        .line("N", "10,0,0,0,0")
        .line("D", "0,0,1,0,0")
        .line("N", ACCEPTED)
        .check();
}

#[test]
fn an_upcall_comes_where_the_processor_is_given() {
    Case::new()
        .line("A,1,7", "0,0,0,0,1")
        .line("I,1", "0,0,0,1,0")
        .quiet("O I,1")
        .check();
}

/// "above 8 it is refused as before, else nothing if g already runs"
#[test]
fn s_to_the_one_running_does_nothing() {
    for lines in [
        "",
        "A,1,7",
        "S,1 A,1,7 A,2,8 T,200",
        "S,1 B,1 T,200",
        "257*A,1,7 S,1",
    ] {
        let before = after(lines);
        let mut node = before.clone();
        let kept = report(&mut node, &format!("S,{}", before.running));
        assert!(kept.accepted() && kept.upcall == 0 && kept.moved == 0);
        assert_eq!(node, before, "{lines}");
        assert_eq!(
            report(&mut node, "S,9"),
            Report::refused(Refusal::ProcessorGroup)
        );
        assert_eq!(node, before, "{lines}");
    }
}

/// "else O, and I unless g is 0, with the moved counts summed": one line leaves, and tells, what two do.
#[test]
fn s_to_another_is_o_and_i() {
    let mut switches = 0;
    for run in random_runs(1, 1000) {
        let mut node = Node::power_on();
        for operation in run {
            let mut two = node.clone();
            let before = node.running;
            let report = node.step(&operation);
            let Operation::Switch { group } = operation else {
                continue;
            };
            if !report.accepted() || group as usize == before {
                continue;
            }
            let taken = two.step(&Operation::Preempt);
            let given = match group {
                0 => Report::default(),
                _ => two.step(&Operation::Dispatch { group }),
            };
            assert_eq!(node, two);
            assert!(taken.accepted() && given.accepted());
            assert_eq!(report.upcall, given.upcall);
            assert_eq!(report.moved, taken.moved + given.moved);
            assert_eq!((report.value, report.trap as u32), (0, 0));
            switches += 1;
        }
    }
    assert!(switches > 1000, "{switches}");
}

/// Frame 0 is group 2's, frame 1 group 3's; of group 1 one message is in the hardware queue.
#[test]
fn nobodys_first_page_is_spared_while_the_processor_is_taken() {
    let node = after("A,2,7 A,3,7 240*A,4,7 S,1 B A,1,7");
    assert!(node.free.is_empty());
    let taken = step(&node, "O");
    assert_eq!(
        (pages(&taken, 1), pages(&taken, 2)),
        (&[0].into(), &[S0].into())
    );
    let given = step(&taken, "I,2");
    assert_eq!(
        (pages(&given, 2), pages(&given, 3)),
        (&[1].into(), &[S0].into())
    );
    assert_eq!(step(&node, "S,2"), given);
    assert_eq!((given.sent_out, given.brought_in), (2, 1));
}

/// As a line and in memory, which is told as the paper's "separate call".
#[test]
fn a_first_page_is_brought_in_as_the_processor_is_given() {
    let memory = memory_after("257*A,1,7");
    assert_eq!(memory::paging(&memory), [1, 0]);
    assert_eq!(memory::paging(&memory_after("257*A,1,7 I,1")), [2, 1]);
    assert_eq!(memory::paging(&memory_after("257*A,1,7 I,1 O")), [2, 1]);
    assert_eq!(memory::paging(&memory_after("257*A,1,7 I,1 O I,1")), [2, 1]);
}

#[test]
fn what_is_met_where_the_processor_is_taken_and_given() {
    let queued = vec![Event::QueueTaken];
    assert_eq!(events("S,1 A,1,7", "O"), queued);
    assert_eq!(events("S,1 A,1,7", "S,0"), queued);
    let two_acts = vec![Event::QueueTaken, Event::TwoActs];
    assert_eq!(events("S,1 A,1,7", "S,2"), two_acts);
    assert_eq!(events("S,1", "S,2"), [Event::TwoActs]);
    assert_eq!(events("S,1", "O"), []);
    assert_eq!(events("", "S,1"), []);
    assert_eq!(events("", "O"), [Event::NobodyTaken]);
    assert_eq!(events("S,1 B,1 T,9", "O"), [Event::TimerTaken]);
    assert_eq!(events("S,1 B,1 A,1,7 T,9", "O"), queued);
    assert_eq!(events("S,1 B,1 O", "I,1"), [Event::ForceKept]);
    assert_eq!(events("S,1 A,1,7", "S,1"), [Event::QueueKept]);
    assert_eq!(events("S,1", "S,1"), []);
    assert_eq!(events("", "S,0"), []);
}

#[test]
fn what_is_met_by_first_pages() {
    let out = "A,1,7 249*A,2,7";
    let exchanged = [Event::Exchanged(Cause::Given)];
    assert_eq!(events(out, "I,1"), exchanged);
    assert_eq!(events(out, "S,1"), exchanged);
    // Group 3 uses up its only page, so that a frame is free.
    let room = "A,1,7 248*A,2,7 A,3,7 S,3 D S,0";
    assert_eq!(events(room, "I,1"), [Event::BroughtIn(Cause::Given)]);
    let next = [Event::PageUsedUp, Event::BroughtIn(Cause::Next)];
    assert_eq!(events("257*A,1,7 S,1 7*D", "D"), next);
    let full = "A,1,1 248*A,4,4 S,3 A,3,3";
    let sent_out = [Event::QueueTaken, Event::SentOut];
    assert_eq!(events(full, "O"), sent_out);
    let switched = [
        Event::QueueTaken,
        Event::SentOut,
        Event::NewRunnerSentOut,
        Event::TwoActs,
        Event::Exchanged(Cause::Given),
    ];
    assert_eq!(events(full, "S,1"), switched);
    assert_eq!(
        events(full, "S,2"),
        [Event::QueueTaken, Event::SentOut, Event::TwoActs]
    );
}
