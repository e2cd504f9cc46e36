//! Order 2, sentence by sentence: what B's field is, when the timer counts, and what a timeout leaves.

use judge::node::Node;

use crate::support::{after, listing, Case, ACCEPTED};

const UNREADABLE: &str = "2,0,0,0,0";

/// A group's flags force and revoked.
fn flags(node: &Node, group: usize) -> (bool, bool) {
    let group = &node.groups[group - 1];
    (group.force, group.revoked)
}

#[test]
fn begin_has_no_field_or_0_or_1() {
    let mut case = Case::new().line("B,2", UNREADABLE).line("B,1", "7,0,0,0,0");
    case = case.quiet("S,1 B B,0 B,00 B,1 B,01 B,0000000001");
    for line in "B,2 B,10 B,4294967295 B,1,1 B,0,0 B, B,x B,-1 B,00000000001".split(' ') {
        case = case.line(line, UNREADABLE);
    }
    case.check();
}

#[test]
fn only_a_field_of_1_turns_force_on_and_none_turns_it_off() {
    for (lines, force) in [
        ("S,1 B", false),
        ("S,1 B,0", false),
        ("S,1 B,1", true),
        ("S,1 B B,1", true),
        ("S,1 B,1 B", true),
        ("S,1 B,1 B,0", true),
        ("S,1 B,1 N", false),
        ("S,1 B,1 N B", false),
    ] {
        assert_eq!(flags(&after(lines), 1), (force, false), "{lines}");
    }
}

/// A section that an upcall began is forced by B as any other is.
#[test]
fn an_upcalls_section_is_forced_too() {
    let node = after("S,1 A,1,7 B,1");
    assert!(node.groups[0].pending && node.groups[0].force);
    Case::new()
        .quiet("S,1")
        .line("A,1,7", "0,0,0,1,0")
        .line("B,1", ACCEPTED)
        .line("N", "10,0,0,0,0")
        .quiet("D T,255")
        .line("T,1", "0,0,3,0,0")
        .check();
}

#[test]
fn ticks_count_with_an_empty_queue() {
    assert_eq!(after("S,1 B,1 T,255").timer, 255);
    assert_eq!(after("S,1 B T,255").timer, 0);
    Case::new()
        .quiet("S,1 B,1 T,255")
        .line("T,1", "0,0,3,0,0")
        .check();
}

/// "the group running and atomic": another's force counts for nobody.
#[test]
fn ticks_count_for_the_running_group_alone() {
    assert_eq!(after("S,1 B,1 S,2 T,255").timer, 0);
    assert_eq!(after("S,1 B,1 S,2 B T,255").timer, 0);
    assert_eq!(after("S,1 B,1 S,0 T,255").timer, 0);
    assert_eq!(after("S,1 B,1 S,2 S,1 T,255").timer, 255);
}

#[test]
fn ticks_before_a_message_and_behind_it_are_one_count() {
    Case::new()
        .quiet("S,1 B,1 T,200 A,1,7 T,55")
        .line("T,1", "0,0,3,0,1")
        .check();
}

#[test]
fn settling_leaves_a_forced_timer() {
    assert_eq!(after("S,1 B,1 T,200 M P,1 B").timer, 200);
    // Settling moves a message of another group, and the queue is empty again.
    assert_eq!(after("S,1 B,1 T,200 A,2,7").timer, 200);
}

#[test]
fn dispose_a_switch_and_a_timeout_set_a_forced_timer_back() {
    assert_eq!(after("S,1 B,1 A,1,7 T,200 D").timer, 0);
    assert_eq!(after("S,1 B,1 T,200 S,2 S,1").timer, 0);
    assert_eq!(after("S,1 B,1 T,200 S,1").timer, 200);
    assert_eq!(after("S,1 B,1 T,256").timer, 0);
    Case::new().quiet("S,1 B,1 A,1,7 T,200 D T,56").check();
}

/// "An accepted N turns it off"; settling then finds none.
#[test]
fn end_takes_the_timer_back_where_the_queue_is_empty() {
    assert_eq!(after("S,1 B,1 T,200 N").timer, 0);
    let node = after("S,1 B,1 A,1,7 T,200 N");
    assert_eq!((node.timer, flags(&node, 1)), (200, (false, false)));
}

#[test]
fn a_refused_end_leaves_force_and_revoked() {
    let lines = "S,1\nA,1,7\nB,1\nT,256\nN\n";
    assert!(listing(lines.as_bytes()).ends_with("\n5,10,0,0,0,0\n"));
    let node = judge::script::node_after(lines.as_bytes());
    assert_eq!(flags(&node, 1), (true, true));
}

#[test]
fn all_ticks_are_played() {
    Case::new()
        .quiet("S,1 B,1")
        .line("T,300", "0,0,3,0,0")
        .line("T,212", "0,0,3,0,0")
        .check();
    assert_eq!(after("S,1 B,1 T,300").timer, 300 - 256);
    assert_eq!(after("S,1 B,1 T,7 T,65535").timer, (7 + 65_535) % 256);
    // What the first timeout moves is all that is moved.
    Case::new()
        .quiet("S,1 B,1 A,1,7 A,2,8")
        .line("T,1000", "0,0,3,0,2")
        .check();
    assert_eq!(after("S,1 B,1 A,1,7 A,2,8 T,1000").timer, 1000 % 256);
    // Without force the queue that a timeout emptied ends it.
    assert_eq!(after("S,1 B A,1,7 A,2,8 T,1000").timer, 0);
}

/// "At any timeout": also one that moves nothing, and where the group is buffered or revoked already.
#[test]
fn any_timeout_revokes_the_running_group_alone() {
    for lines in [
        "S,1 B A,1,7 T,256",
        "S,1 A,1,7 T,256",
        "S,1 B,1 T,256",
        "S,1 B,1 T,256 T,256",
        "A,1,7 S,1 B,1 T,256",
    ] {
        assert!(flags(&after(lines), 1).1, "{lines}");
    }
    let node = after("S,2 B,1 S,1 B A,1,7 A,2,5 T,256");
    assert_eq!(
        (flags(&node, 1), flags(&node, 2)),
        ((false, true), (true, false))
    );
}

#[test]
fn a_revoked_group_is_buffered_though_empty() {
    Case::new()
        .quiet("S,1 B,1")
        .line("T,256", "0,0,3,0,0")
        .line("D", "8,0,0,0,0")
        .line("E,0", "8,0,0,0,0")
        .line("M", ACCEPTED)
        .line("A,1,7", "0,0,0,0,1")
        .line("D", "0,0,1,0,0")
        .line("A,1,8", "0,0,0,0,1")
        .line("D", "0,0,1,0,0")
        .line("N", "0,0,2,0,0")
        .line("A,1,9", "0,0,0,1,0")
        .line("D", ACCEPTED)
        .line("N", ACCEPTED)
        .check();
}

#[test]
fn revoked_ends_with_the_next_accepted_end_and_with_nothing_else() {
    assert!(!flags(&after("S,1 B,1 T,256 N"), 1).1);
    for lines in [
        "S,1 B A,1,7 T,256 D",
        "S,1 B,1 T,256 B",
        "S,1 B,1 T,256 B,0",
        "S,1 B,1 T,256 S,2 S,1",
        "S,1 B,1 T,256 T,1",
    ] {
        assert!(flags(&after(lines), 1).1, "{lines}");
    }
    // With messages left in the buffer the group is no longer revoked, but still buffered.
    Case::new()
        .quiet("S,1 B A,1,7 A,1,8")
        .line("T,256", "0,0,3,0,2")
        .line("N", "0,0,2,1,0")
        .line("D", "0,0,1,0,0")
        .line("N", "0,0,2,1,0")
        .line("D", "0,0,1,0,0")
        .line("N", ACCEPTED)
        .check();
}

#[test]
fn force_and_revoked_survive_the_loss_of_the_processor() {
    let node = after("S,1 B,1 T,256 S,2");
    assert_eq!(
        (flags(&node, 1), flags(&node, 2)),
        ((true, true), (false, false))
    );
    Case::new()
        .quiet("S,1 B,1 S,2 S,1 T,255")
        .line("T,1", "0,0,3,0,0")
        .quiet("S,0 S,1")
        .line("A,1,7", "0,0,0,0,1")
        .check();
}

/// While another runs, a revoked group's messages wait behind one that may stay, and settle with it.
#[test]
fn a_revoked_groups_queued_messages_move_when_it_runs() {
    Case::new()
        .quiet("S,1 B,1")
        .line("T,256", "0,0,3,0,0")
        .quiet("S,2 B A,2,5 A,1,7 A,2,6")
        .line("S,1", "0,0,0,0,3")
        .line("D", "0,0,1,0,0")
        .check();
}

/// A pledge and a line are what they were.
#[test]
fn a_revoked_group_pledges_nothing_for_it() {
    Case::new()
        .times(760, "A,2,7", "0,0,0,0,1")
        .quiet("S,1 B,1")
        .line("T,256", "0,0,3,0,0")
        .times(8, "A,1,7", "0,0,0,0,1")
        .line("A,1,7", "6,0,0,0,0")
        .check();
}
