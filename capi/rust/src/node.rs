//! Memory with the calls as methods.

use std::ops::Range;

use crate::{calls, Report, HEAD, PAGING, REPORT};

/// How many pages went to swap space and back so far; an exchange is one of each. A count stays at
/// `u32::MAX` once there.
#[derive(Clone, Copy, Debug, Default, PartialEq, Eq)]
pub struct Paging {
    pub sent_out: u32,
    pub brought_in: u32,
}

/// Memory that the calls are made on: a `Vec<u32>` that it owns, or a `&mut [u32]` that it is lent.
/// It need not be a node: then each step is refused with 1, and changes nothing.
#[derive(Clone, Debug, PartialEq, Eq)]
pub struct Node<M> {
    memory: M,
}

impl<M: AsRef<[u32]> + AsMut<[u32]>> Node<M> {
    /// Memory that becomes a node, whatever stands in it; the report where it is refused.
    pub fn power_on(memory: M) -> Result<Node<M>, Report> {
        let mut node = Node::over(memory);
        let report = node.restart();
        if report.is_accepted() {
            Ok(node)
        } else {
            Err(report)
        }
    }

    /// Memory as it is.
    pub fn over(memory: M) -> Node<M> {
        Node { memory }
    }

    /// Power-on once more.
    pub fn restart(&mut self) -> Report {
        reported(|report| calls::power_on(self.memory.as_mut(), report))
    }

    /// Whether the memory is a node.
    pub fn test(&self) -> bool {
        calls::test(self.memory()) != 0
    }

    /// One step: the operation by its letter and its numbers, for `A` the group and the words, for
    /// `B` none or one, 1 where it turns force on and 0 where it leaves it.
    pub fn step(&mut self, letter: u8, arguments: &[u32]) -> Report {
        reported(|report| calls::step(self.memory.as_mut(), letter, arguments, report))
    }

    /// One line of a script, without its newline.
    pub fn line(&mut self, text: &[u8]) -> Report {
        reported(|report| calls::line(self.memory.as_mut(), text, report))
    }

    /// Where the running group's first message stands in the memory; an empty range at 0 where
    /// there is none.
    pub fn head_part(&self) -> Range<usize> {
        let mut part = [0; HEAD];
        let written = calls::head(self.memory(), &mut part);
        debug_assert_eq!(written as usize, HEAD);
        let [start, count] = part.map(|word| word as usize);
        start..start + count
    }

    /// Its words, in the memory itself: an accepted E with i hands back word i of them.
    pub fn head(&self) -> &[u32] {
        &self.memory()[self.head_part()]
    }

    /// How many pages were sent out and brought in; none where the memory is no node.
    pub fn paging(&self) -> Paging {
        let mut part = [0; PAGING];
        let written = calls::paging(self.memory(), &mut part);
        debug_assert_eq!(written as usize, PAGING);
        let [sent_out, brought_in] = part;
        Paging {
            sent_out,
            brought_in,
        }
    }

    pub fn memory(&self) -> &[u32] {
        self.memory.as_ref()
    }

    /// The memory back.
    pub fn into_memory(self) -> M {
        self.memory
    }
}

/// The report of a call that tells it in a part with room for it.
fn reported(call: impl FnOnce(&mut [u32]) -> u32) -> Report {
    let mut words = [0; REPORT];
    let written = call(&mut words);
    debug_assert_eq!(written as usize, REPORT);
    Report::from_words(&words)
}
