//! Random memories, each with what it is asked.

use fugu::{HEAD, PAGING, REPORT};
use judge::memory::trials::{reachable, vary};
use judge::random::Random;

use crate::asked::Asked;

/// The script that leads to a node takes far longer than all else: so many memories are made of one
/// node.
const OF_ONE_NODE: u32 = 16;

/// A memory, what it is asked, and how long the parts are that the calls tell in.
#[derive(Clone, Debug, PartialEq, Eq)]
pub struct Trial {
    pub memory: Vec<u32>,
    pub asked: Asked,
    pub report_length: usize,
    pub head_length: usize,
    pub paging_length: usize,
}

/// The memories of a seed, without end.
pub struct Memories {
    random: Random,
    node: Vec<u32>,
    left: u32,
}

impl Memories {
    pub fn new(seed: u64) -> Self {
        Memories {
            random: Random::new(seed),
            node: Vec::new(),
            left: 0,
        }
    }
}

impl Iterator for Memories {
    type Item = Trial;

    fn next(&mut self) -> Option<Trial> {
        let random = &mut self.random;
        if self.left == 0 {
            self.node = reachable(random);
            self.left = OF_ONE_NODE;
        }
        self.left -= 1;
        let mut memory = self.node.clone();
        vary(&mut memory, random);
        Some(Trial {
            memory,
            asked: Asked::any(random),
            report_length: any_length(random, REPORT),
            head_length: any_length(random, HEAD),
            paging_length: any_length(random, PAGING),
        })
    }
}

/// How long a part is for so many words: most often just as long.
fn any_length(random: &mut Random, words: usize) -> usize {
    match random.between(1, 32) {
        1 => random.between(0, words as u64 - 1) as usize,
        2..=4 => words + random.between(1, words as u64) as usize,
        _ => words,
    }
}
