//! Where a reader of the paper could choose: each choice in a script that tells it.

use crate::support::{listing, Case, ACCEPTED};

const UNREADABLE: &str = "2,0,0,0,0";

#[test]
fn a_comma_parts_two_fields() {
    Case::new()
        .line("A,1,", UNREADABLE)
        .line("A,1", "4,0,0,0,0")
        .line("A", UNREADABLE)
        .line("A,", UNREADABLE)
        .line("S,1,", UNREADABLE)
        .line("M,", UNREADABLE)
        .line(",", UNREADABLE)
        .check();
}

#[test]
fn a_bad_number_in_an_arrival_comes_before_its_refusals() {
    Case::new()
        .line("A,1,1,2,3,4,5,6,7,8,9,x", UNREADABLE)
        .line("A,0,x", UNREADABLE)
        .line("A,9,1,,2", UNREADABLE)
        .check();
}

#[test]
fn a_wrong_count_of_fields_is_unreadable() {
    let mut case = Case::new().quiet("S,1");
    for line in
        "S S,1,2 O,1 I I,1,1 T T,1,2 M,1 E E,0,0 D,1 B,1,1 N,1 P P,1,2 L L,1,2 C,1".split(' ')
    {
        case = case.line(line, UNREADABLE);
    }
    case.check();
}

#[test]
fn leading_zeros_count_as_digits() {
    Case::new()
        .line("S,0000000001", ACCEPTED)
        .line("S,00000000001", UNREADABLE)
        .line("S,00", ACCEPTED)
        .check();
}

#[test]
fn numbers_up_to_32_bits_are_read_and_judged() {
    Case::new()
        .line("T,4294967295", "15,0,0,0,0")
        .line("T,4294967296", UNREADABLE)
        .line("T,9999999999", UNREADABLE)
        .line("A,4294967295,1", "3,0,0,0,0")
        .line("S,4294967295", "14,0,0,0,0")
        .check();
}

#[test]
fn only_digits_make_a_number() {
    let mut case = Case::new();
    for line in ["S,+1", "S,-1", "S,0x1", "S,1.0", "S,\u{661}", "S,\"1\""] {
        case = case.line(line, UNREADABLE);
    }
    case.check();
}

#[test]
fn only_a_newline_ends_a_line_and_nothing_else_is_skipped() {
    let mut case = Case::new();
    for line in [
        "S,1\r", "S, 1", " S,1", "S,1 ", "S,1\0", "S\t,1", "s,1", "SS,1",
    ] {
        case = case.line(line, UNREADABLE);
    }
    case.line("m", UNREADABLE).line("X", UNREADABLE).check();
    assert_eq!(
        listing(b"S,1\r\rM\x80\xff"),
        "line,answer,value,trap,upcall,moved\n1,2,0,0,0,0\n"
    );
}

#[test]
fn an_empty_line_is_a_line_but_the_end_is_none() {
    Case::new()
        .line("S,1", ACCEPTED)
        .line("", UNREADABLE)
        .check();
    Case::new().line("", UNREADABLE).check();
}

#[test]
fn a_last_line_may_lack_its_newline_but_the_listing_has_it() {
    assert_eq!(listing(b"S,1\nM"), listing(b"S,1\nM\n"));
}

#[test]
fn a_line_of_128_bytes_is_read_and_a_longer_one_is_one_bad_line() {
    let ones = ",1".repeat(62);
    let (longest, longer) = (format!("A,01{ones}"), format!("A,001{ones}"));
    assert_eq!((longest.len(), longer.len()), (128, 129));
    Case::new()
        .line(&longest, "4,0,0,0,0")
        .line(&longer, UNREADABLE)
        .line(&"x".repeat(300), UNREADABLE)
        .line("S,1", ACCEPTED)
        .check();
}

#[test]
fn a_long_last_line_without_a_newline_is_one_line() {
    for length in [128, 129, 130, 258, 100_000] {
        let script = "x".repeat(length);
        assert_eq!(
            listing(script.as_bytes()),
            "line,answer,value,trap,upcall,moved\n1,2,0,0,0,0\n"
        );
    }
}

#[test]
fn a_switch_to_the_runner_leaves_the_timer() {
    Case::new()
        .quiet("S,1 B A,1,7 T,255 S,1")
        .line("T,1", "0,0,3,0,1")
        .check();
    Case::new().quiet("S,0 S,0").check();
}

#[test]
fn a_switch_sets_the_timer_back() {
    Case::new()
        .quiet("S,1 B A,1,7 T,255")
        .line("S,2", "0,0,0,0,1")
        .line("A,2,8", "0,0,0,2,0")
        .quiet("T,255")
        .line("T,1", "0,0,3,0,1")
        .check();
}

#[test]
fn dispose_sets_the_timer_back_while_messages_stay() {
    Case::new()
        .quiet("S,1 B A,1,7 A,1,8 T,255 D T,255")
        .line("T,1", "0,0,3,0,1")
        .check();
}

#[test]
fn refused_dispose_and_end_have_no_trap() {
    Case::new()
        .line("A,1,7", "0,0,0,0,1")
        .line("S,1", "0,0,0,1,0")
        .line("N", "10,0,0,0,0")
        .line("S,2", ACCEPTED)
        .line("D", "8,0,0,0,0")
        .check();
}

#[test]
fn the_last_buffered_dispose_has_its_trap() {
    Case::new()
        .line("A,1,7", "0,0,0,0,1")
        .line("S,1", "0,0,0,1,0")
        .line("D", "0,0,1,0,0")
        .line("N", ACCEPTED)
        .check();
}

#[test]
fn one_step_of_ticks_has_at_most_one_timeout_without_force() {
    Case::new()
        .quiet("S,1 B A,1,7 A,1,8")
        .line("T,65535", "0,0,3,0,2")
        .line("T,65535", ACCEPTED)
        .line("D", "0,0,1,0,0")
        .line("D", "0,0,1,0,0")
        .line("N", "0,0,2,0,0")
        .quiet("B A,1,9 T,255")
        .line("T,1", "0,0,3,0,1")
        .check();
}

#[test]
fn ticks_on_an_empty_queue_do_not_count() {
    Case::new().quiet("S,1 B T,255 A,1,7 T,255").check();
}

#[test]
fn an_arrival_that_passes_through_is_moved() {
    Case::new()
        .line("A,1,7", "0,0,0,0,1")
        .line("S,2", ACCEPTED)
        .line("A,1,7", "0,0,0,0,1")
        .check();
}

#[test]
fn a_buffered_new_runner_has_its_queued_messages_moved_too() {
    Case::new()
        .line("A,2,1", "0,0,0,0,1")
        .line("S,1", ACCEPTED)
        .line("A,1,2", "0,0,0,1,0")
        .line("A,2,3", ACCEPTED)
        .line("A,1,4", ACCEPTED)
        .line("S,2", "0,0,0,2,3")
        .line("D", "0,0,1,0,0")
        .line("E,0", "0,3,0,0,0")
        .check();
}

#[test]
fn messages_behind_one_that_may_stay_settle_when_it_goes() {
    Case::new()
        .line("S,1", ACCEPTED)
        .line("A,1,1", "0,0,0,1,0")
        .quiet("A,2,2 A,3,3 A,1,4 A,2,5")
        .line("D", "0,0,0,0,2")
        .line("E,0", "0,4,0,0,0")
        .line("D", "0,0,0,0,1")
        .line("M", ACCEPTED)
        .check();
}

#[test]
fn end_while_buffered_has_trap_and_upcall_at_once() {
    Case::new()
        .line("A,1,7", "0,0,0,0,1")
        .line("A,1,8", "0,0,0,0,1")
        .line("S,1", "0,0,0,1,0")
        .line("D", "0,0,1,0,0")
        .line("N", "0,0,2,1,0")
        .check();
}

#[test]
fn end_without_a_section_is_accepted() {
    Case::new()
        .quiet("S,1 N N")
        .line("A,1,7", "0,0,0,1,0")
        .check();
}

#[test]
fn an_arrival_in_a_section_waits_for_its_end() {
    Case::new()
        .quiet("S,1 B A,1,7")
        .line("N", "0,0,0,1,0")
        .line("N", "10,0,0,0,0")
        .check();
}

#[test]
fn pending_survives_the_loss_of_the_processor() {
    Case::new()
        .line("S,1", ACCEPTED)
        .line("A,1,7", "0,0,0,1,0")
        .line("S,0", "0,0,0,0,1")
        .line("S,1", ACCEPTED)
        .line("N", "10,0,0,0,0")
        .line("D", "0,0,1,0,0")
        .line("N", ACCEPTED)
        .check();
}

#[test]
fn atomic_and_descriptor_survive_the_loss_of_the_processor() {
    Case::new()
        .quiet("S,1 B")
        .line("P,9", "0,1,0,0,0")
        .quiet("S,2")
        .line("L,0", "12,0,0,0,0")
        .quiet("S,1")
        .line("A,1,7", ACCEPTED)
        .line("L,0", "0,1,0,0,0,0,1,9")
        .check();
}

#[test]
fn dispose_needs_no_upcall() {
    Case::new().quiet("S,1 B A,1,7 D N").check();
}

#[test]
fn a_pledge_counts_used_up_places_and_the_hardware_queue() {
    // 9 - 1 messages and 1 used-up place of group 1 pledge 2 pages, 7 messages of group 2 one.
    Case::new()
        .times(9, "A,1,7", "0,0,0,0,1")
        .times(7, "A,2,7", "0,0,0,0,1")
        .times(93 * 8 - 1, "A,3,7", "0,0,0,0,1")
        .line("S,1", "0,0,0,1,0")
        .line("D", "0,0,1,0,0")
        .line("A,4,7", "6,0,0,0,0")
        .times(7, "A,1,7", "0,0,0,0,1")
        .line("A,1,7", "6,0,0,0,0")
        .line("A,2,7", "0,0,0,0,1")
        .line("A,2,7", "6,0,0,0,0")
        .line("A,3,7", "0,0,0,0,1")
        .line("A,3,7", "6,0,0,0,0")
        .check();
}

#[test]
fn a_direct_dispose_gives_its_pledge_back() {
    Case::new()
        .times(760, "A,1,7", "0,0,0,0,1")
        .quiet("S,2 B A,2,7")
        .line("A,3,7", "6,0,0,0,0")
        .line("D", ACCEPTED)
        .line("A,3,7", "0,0,0,0,1")
        .check();
}

#[test]
fn a_full_queue_is_told_before_pledged_pages() {
    Case::new()
        .times(752, "A,2,7", "0,0,0,0,1")
        .quiet("S,1 B")
        .times(16, "A,1,7", ACCEPTED)
        .line("A,1,7", "5,0,0,0,0")
        .line("A,3,7", "5,0,0,0,0")
        .line("D", ACCEPTED)
        .line("A,3,7", "6,0,0,0,0")
        .check();
}

#[test]
fn an_empty_line_has_length_0_and_no_word() {
    Case::new()
        .quiet("S,1 M")
        .line("E,0", "8,0,0,0,0")
        .line("E,4294967295", "8,0,0,0,0")
        .check();
}

#[test]
fn nobody_is_told_after_unreadable_and_before_all_else_of_the_user() {
    let mut case = Case::new();
    for line in "M E,0 E,9 D B N P,1 L,0 L,64".split(' ') {
        case = case.line(line, "7,0,0,0,0");
    }
    case.line("E,x", UNREADABLE).check();
}

#[test]
fn refused_steps_change_nothing() {
    Case::new()
        .quiet("S,1 B A,1,7 T,255")
        .line("T,65536", "15,0,0,0,0")
        .line("S,9", "14,0,0,0,0")
        .line("E,1", "9,0,0,0,0")
        .line("X", UNREADABLE)
        .line("A,1", "4,0,0,0,0")
        .line("T,1", "0,0,3,0,1")
        .check();
}
