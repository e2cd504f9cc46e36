//! What a step reported.

use crate::answer::ACCEPTED;
use crate::REPORT;

/// What an accepted L sends; all 0 where nothing is sent.
#[derive(Clone, Copy, Debug, Default, PartialEq, Eq)]
pub struct Sent {
    pub node: u32,
    pub group: u32,
    pub count: u32,
    pub all_words: [u32; 8],
}

impl Sent {
    /// The words sent, 1 to 8; none where nothing is.
    pub fn words(&self) -> &[u32] {
        let count = usize::try_from(self.count).unwrap_or(usize::MAX);
        &self.all_words[..count.min(self.all_words.len())]
    }
}

/// A report: of a refused step all but the answer is 0.
#[derive(Clone, Copy, Debug, Default, PartialEq, Eq)]
pub struct Report {
    pub answer: u32,
    pub value: u32,
    pub trap: u32,
    pub upcall: u32,
    pub moved: u32,
    pub sent: Sent,
}

impl Report {
    /// The report that stands in a call's part.
    pub fn from_words(words: &[u32; REPORT]) -> Report {
        let [answer, value, trap, upcall, moved, node, group, count, all_words @ ..] = *words;
        let sent = Sent {
            node,
            group,
            count,
            all_words,
        };
        Report {
            answer,
            value,
            trap,
            upcall,
            moved,
            sent,
        }
    }

    pub fn is_accepted(&self) -> bool {
        self.answer == ACCEPTED
    }
}
