//! C: the next group that has mail, whoever runs; nothing changes.

use fugu::{Node, Report};

use crate::support::{after, arrivals, only};

/// The group that C names, by its letter and by its line; the memory stays as it was.
fn named(node: &Node<Vec<u32>>) -> u32 {
    let (mut by_letter, mut by_line) = (node.clone(), node.clone());
    let report = by_letter.step(b'C', &[]);
    assert_eq!(by_line.line(b"C"), report);
    assert!(by_letter == *node && by_line == *node);
    let value = report.value;
    assert_eq!(report, Report { value, ..only(0) });
    value
}

/// Upward and round from 8 to 1, the running one last; with nobody running from 1 on.
#[test]
fn every_runner() {
    for (runner, group) in [1, 4, 4, 4, 8, 8, 8, 8, 1].into_iter().enumerate() {
        let runs = format!("S,{runner}");
        let node = after(&["A,1,1", "A,4,4", "A,8,8", &runs]);
        assert_eq!(named(&node), group, "{runs}");
    }
}

#[test]
fn none_with_mail_and_the_running_one_alone() {
    for runner in 0..=8 {
        let runs = format!("S,{runner}");
        assert_eq!(named(&after(&[&runs])), 0, "{runs}");
        assert_eq!(named(&after(&["A,5,1", &runs])), 5, "{runs}");
    }
}

/// Behind the head of the hardware queue.
#[test]
fn queued_mail() {
    assert_eq!(named(&after(&["S,3", "A,3,1", "A,8,1", "A,1,1"])), 8);
    assert_eq!(named(&after(&["S,3", "A,3,1"])), 3);
}

/// Group 1's messages have sent out group 2's only page.
#[test]
fn mail_in_swap() {
    let mut lines = arrivals(&["A,2,5"], "A,1,7", 249);
    lines.push("S,1");
    let node = after(&lines);
    assert_eq!(node.paging().sent_out, 1);
    assert_eq!(named(&node), 2);
}

#[test]
fn a_revoked_group_without_messages() {
    assert_eq!(named(&after(&["S,1", "B,1", "T,256", "S,2"])), 0);
}
