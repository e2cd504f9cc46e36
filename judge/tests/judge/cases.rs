//! The cases of paper 01: the whole case, K1 to K8, and the edges after them, as the orders of paper 02
//! have changed them.

use crate::support::{listing, Case, ACCEPTED};

const WHOLE_CASE: &str = "\
S,1\nA,1,7\nA,2,5,6\nN\nE,0\nT,256\nD\nN\nS,2\nM\nD\nP,9\nL,3\n";

const WHOLE_LISTING: &str = "\
line,answer,value,trap,upcall,moved
1,0,0,0,0,0
2,0,0,0,1,0
3,0,0,0,0,0
4,10,0,0,0,0
5,0,7,0,0,0
6,0,0,3,0,2
7,0,0,1,0,0
8,0,0,2,0,0
9,0,0,0,2,0
10,0,2,0,0,0
11,0,0,1,0,0
12,0,1,0,0,0
13,0,1,0,0,0,3,2,9
";

#[test]
fn k1_whole_case() {
    assert_eq!(listing(WHOLE_CASE.as_bytes()), WHOLE_LISTING);
}

#[test]
fn the_example_is_the_whole_case() {
    let example = include_str!("../../../examples/whole-case.script");
    assert_eq!(example, WHOLE_CASE);
}

#[test]
fn k2_timeout_at_256_not_at_255() {
    Case::new()
        .quiet("S,1 B A,1,7 T,255")
        .line("T,1", "0,0,3,0,1")
        .check();
}

#[test]
fn k3_sixteen_messages_fill_the_hardware_queue() {
    Case::new()
        .quiet("S,1 B")
        .times(16, "A,1,7", ACCEPTED)
        .line("A,1,7", "5,0,0,0,0")
        .check();
}

#[test]
fn k4_a_switch_empties_the_hardware_queue() {
    Case::new()
        .quiet("S,1")
        .line("A,1,7", "0,0,0,1,0")
        .quiet("A,2,5")
        .line("S,2", "0,0,0,2,2")
        .line("D", "0,0,1,0,0")
        .check();
}

#[test]
fn k5_begin_is_not_counted() {
    Case::new()
        .quiet("S,1 B B N")
        .line("A,1,7", "0,0,0,1,0")
        .check();
}

#[test]
fn k6_eight_words_and_no_more() {
    Case::new()
        .quiet("S,1")
        .line("A,1,1,2,3,4,5,6,7,8", "0,0,0,1,0")
        .line("E,7", "0,8,0,0,0")
        .line("E,8", "9,0,0,0,0")
        .line("A,1,1,2,3,4,5,6,7,8,9", "4,0,0,0,0")
        .check();
}

#[test]
fn k7_an_empty_descriptor_is_told_before_a_bad_node() {
    Case::new()
        .quiet("S,1")
        .line("L,64", "12,0,0,0,0")
        .line("P,5", "0,1,0,0,0")
        .line("L,64", "13,0,0,0,0")
        .check();
}

#[test]
fn k8_dispose_with_nobody_and_with_nothing() {
    Case::new()
        .line("D", "7,0,0,0,0")
        .quiet("S,1")
        .line("D", "8,0,0,0,0")
        .check();
}

#[test]
fn pages_are_full_after_768_arrivals() {
    Case::new()
        .times(768, "A,1,7", "0,0,0,0,1")
        .line("A,1,7", "6,0,0,0,0")
        .line("S,1", "0,0,0,1,0")
        .line("D", "0,0,1,0,0")
        .line("A,1,7", "6,0,0,0,0")
        .times(7, "D", "0,0,1,0,0")
        .line("A,1,7", "0,0,0,0,1")
        .line("A,2,7", "6,0,0,0,0")
        .check();
}

#[test]
fn limits_of_switch_and_ticks() {
    Case::new()
        .line("S,8", ACCEPTED)
        .line("S,9", "14,0,0,0,0")
        .line("T,65535", ACCEPTED)
        .line("T,65536", "15,0,0,0,0")
        .line("T,0", "15,0,0,0,0")
        .check();
}

#[test]
fn limits_of_arrivals() {
    Case::new()
        .line("A,0,7", "3,0,0,0,0")
        .line("A,9,7", "3,0,0,0,0")
        .line("A,9", "3,0,0,0,0")
        .line("A,8", "4,0,0,0,0")
        .line("A,8,7", "0,0,0,0,1")
        .check();
}

#[test]
fn limits_of_the_descriptor_and_of_nodes() {
    let mut case = Case::new().quiet("S,8");
    for length in 1..=8 {
        case = case.line("P,4294967295", &format!("0,{length},0,0,0"));
    }
    let words = ",4294967295".repeat(8);
    case.line("P,1", "11,0,0,0,0")
        .line("L,63", &format!("0,8,0,0,0,63,8{words}"))
        .line("L,63", "12,0,0,0,0")
        .check();
}

#[test]
fn empty_input_gives_the_header_alone() {
    assert_eq!(listing(b""), "line,answer,value,trap,upcall,moved\n");
}

/// "Going back to direct while older messages are still buffered: order breaks."
#[test]
fn misreading_direct_too_early() {
    Case::new()
        .line("A,1,1", "0,0,0,0,1")
        .line("A,1,2", "0,0,0,0,1")
        .line("S,1", "0,0,0,1,0")
        .line("D", "0,0,1,0,0")
        .line("A,1,3", "0,0,0,0,1")
        .line("E,0", "0,2,0,0,0")
        .line("D", "0,0,1,0,0")
        .line("E,0", "0,3,0,0,0")
        .line("D", "0,0,1,0,0")
        .line("A,1,4", ACCEPTED)
        .line("D", ACCEPTED)
        .check();
}

/// "Ending the atomic section at a timeout. Only its hold on the hardware ends."
#[test]
fn misreading_timeout_ends_the_section() {
    Case::new()
        .quiet("S,1 B A,1,7")
        .line("T,256", "0,0,3,0,1")
        .line("A,1,8", "0,0,0,0,1")
        .line("N", "0,0,2,1,0")
        .check();
}

/// "Setting the timer back on N or B: a hog could then hold the queue for ever."
#[test]
fn misreading_timer_set_back_by_the_section() {
    Case::new()
        .quiet("S,1 B A,1,7 T,255 B")
        .line("T,1", "0,0,3,0,1")
        .check();
    Case::new()
        .quiet("S,1 B A,1,7 T,255")
        .line("N", "0,0,0,1,0")
        .line("T,1", "0,0,3,0,1")
        .check();
}

/// "Counting frames only for what is buffered already: a later drain finds none."
#[test]
fn misreading_frames_counted_too_late() {
    Case::new()
        .times(760, "A,1,7", "0,0,0,0,1")
        .quiet("S,2 B")
        .times(8, "A,2,7", ACCEPTED)
        .line("A,2,7", "6,0,0,0,0")
        .line("A,3,7", "6,0,0,0,0")
        .line("T,256", "0,0,3,0,8")
        .check();
}
