//! The paper's private line of demand 3, fed only what the paper lists, against whole random runs.

use std::collections::VecDeque;

use judge::memory;
use judge::node::{Launched, Message, Node, Operation, Report, Trap};

use crate::support::{power_on, random_runs};

/// "the answer number, the value and, for an accepted L, the node, group and words sent"
#[derive(Debug, Default, PartialEq)]
struct Answer {
    number: u32,
    value: u32,
    sent: Option<Launched>,
}

impl Answer {
    fn refused(number: u32) -> Self {
        Answer {
            number,
            ..Answer::default()
        }
    }

    fn of_value(value: usize) -> Self {
        Answer {
            value: value as u32,
            ..Answer::default()
        }
    }
}

impl From<&Report> for Answer {
    fn from(report: &Report) -> Self {
        Answer {
            number: report.answer,
            value: report.value,
            sent: report.launched.clone(),
        }
    }
}

/// What a private line makes of a step.
#[derive(Default)]
struct Outcome {
    /// Its answer, if the step was the group's own.
    answer: Option<Answer>,
    upcall: bool,
}

struct PrivateLine {
    group: u32,
    has_processor: bool,
    atomic: bool,
    pending: bool,
    list: VecDeque<Vec<u32>>,
    descriptor: Vec<u32>,
}

impl PrivateLine {
    fn new(group: u32) -> Self {
        PrivateLine {
            group,
            has_processor: false,
            atomic: false,
            pending: false,
            list: VecDeque::new(),
            descriptor: Vec::new(),
        }
    }

    /// "of the answers it is told only whether an A or an S was accepted": `accepted` is looked at
    /// for these, and for O and I. "An accepted O is as an accepted `S,0`, an accepted `I,g` as an
    /// accepted `S,g`."
    fn step(&mut self, operation: &Operation, accepted: bool) -> Outcome {
        match operation {
            Operation::Arrival { group, words } if accepted && *group == self.group => {
                self.list.push_back(words.clone());
                self.after_accepted(None)
            }
            Operation::Preempt if accepted => self.hear_of_switch(0),
            Operation::Dispatch { group } | Operation::Switch { group } if accepted => {
                self.hear_of_switch(*group)
            }
            Operation::Arrival { .. }
            | Operation::Preempt
            | Operation::Dispatch { .. }
            | Operation::Switch { .. }
            | Operation::Ticks { .. }
            | Operation::Turn
            | Operation::Unknown => Outcome::default(),
            _ if !self.has_processor => Outcome::default(),
            own => match self.own(own) {
                answer if answer.number == 0 => self.after_accepted(Some(answer)),
                refusal => Outcome {
                    answer: Some(refusal),
                    upcall: false,
                },
            },
        }
    }

    /// "g has the processor exactly if S names g."
    fn hear_of_switch(&mut self, group: u32) -> Outcome {
        self.has_processor = group == self.group;
        self.after_accepted(None)
    }

    /// "After each accepted one above, if g has the processor, isn't atomic and its list isn't
    /// empty, atomic and pending go on: an upcall."
    fn after_accepted(&mut self, answer: Option<Answer>) -> Outcome {
        let upcall = self.has_processor && !self.atomic && !self.list.is_empty();
        if upcall {
            self.atomic = true;
            self.pending = true;
        }
        Outcome { answer, upcall }
    }

    fn own(&mut self, operation: &Operation) -> Answer {
        match operation {
            Operation::MessageLength => Answer::of_value(self.list.front().map_or(0, Vec::len)),
            Operation::MessageWord { index } => self.word(*index),
            Operation::Dispose => match self.list.pop_front() {
                None => Answer::refused(8),
                Some(_) => {
                    self.pending = false;
                    Answer::default()
                }
            },
            // "B: atomic on", whatever its field.
            Operation::BeginAtomic { .. } => {
                self.atomic = true;
                Answer::default()
            }
            Operation::EndAtomic if self.pending => Answer::refused(10),
            Operation::EndAtomic => {
                self.atomic = false;
                Answer::default()
            }
            Operation::Describe { .. } if self.descriptor.len() == 8 => Answer::refused(11),
            Operation::Describe { word } => {
                self.descriptor.push(*word);
                Answer::of_value(self.descriptor.len())
            }
            Operation::Launch { .. } if self.descriptor.is_empty() => Answer::refused(12),
            Operation::Launch { node } if *node > 63 => Answer::refused(13),
            Operation::Launch { node } => self.launch(*node),
            other => unreachable!("not a group's own: {other:?}"),
        }
    }

    fn word(&self, index: u32) -> Answer {
        let Some(first) = self.list.front() else {
            return Answer::refused(8);
        };
        match first.get(index as usize) {
            None => Answer::refused(9),
            Some(word) => Answer::of_value(*word as usize),
        }
    }

    fn launch(&mut self, node: u32) -> Answer {
        let words = std::mem::take(&mut self.descriptor);
        Answer {
            value: words.len() as u32,
            sent: Some(Launched {
                node,
                group: self.group,
                words,
            }),
            ..Answer::default()
        }
    }
}

/// The answer of a step that is a group's own: "Answers 1, 2 and 7 belong to no group", and "C changes
/// nothing and belongs to no group".
fn own_answer(
    running: usize,
    group: u32,
    operation: &Operation,
    report: &Report,
) -> Option<Answer> {
    let own = !matches!(
        operation,
        Operation::Arrival { .. }
            | Operation::Preempt
            | Operation::Dispatch { .. }
            | Operation::Switch { .. }
            | Operation::Ticks { .. }
            | Operation::Turn
            | Operation::Unknown
    );
    (own && running == group as usize).then(|| Answer::from(report))
}

#[test]
fn each_group_sees_only_its_private_line() {
    for run in random_runs(3, 1000) {
        let mut memory = power_on();
        let mut running = 0;
        let mut lines: Vec<PrivateLine> = (1..=8).map(PrivateLine::new).collect();
        for operation in run {
            let report = memory::step(&mut memory, &operation);
            let node = memory::read(&memory).expect("a step leaves a node");
            for line in &mut lines {
                let outcome = line.step(&operation, report.accepted());
                let answer = own_answer(running, line.group, &operation, &report);
                assert_eq!(answer, outcome.answer, "{operation:?}");
                assert_eq!(report.upcall == line.group, outcome.upcall, "{operation:?}");
                expect_same_line(&node, line);
            }
            running = node.running;
        }
    }
}

fn expect_same_line(node: &Node, line: &PrivateLine) {
    let group = line.group as usize;
    assert!(node.line(group).eq(line.list.iter().map(Vec::as_slice)));
    assert_eq!(node.groups[group - 1].atomic, line.atomic);
    assert_eq!(node.groups[group - 1].pending, line.pending);
    assert_eq!(node.groups[group - 1].descriptor, line.descriptor);
}

/// "its accepted messages without as many from the front as it had accepted D"
#[test]
fn a_line_is_the_accepted_messages_without_the_disposed() {
    for run in random_runs(2, 1000) {
        let mut node = Node::power_on();
        let mut accepted: [Vec<Vec<u32>>; 8] = Default::default();
        let mut disposed = [0; 8];
        for operation in run {
            let running = node.running;
            match (&operation, node.step(&operation).accepted()) {
                (Operation::Arrival { group, words }, true) => {
                    accepted[*group as usize - 1].push(words.clone());
                }
                (Operation::Dispose, true) => disposed[running - 1] += 1,
                _ => {}
            }
            for group in 1..=8 {
                let left = &accepted[group - 1][disposed[group - 1]..];
                assert!(node.line(group).eq(left.iter().map(Vec::as_slice)));
            }
        }
    }
}

/// A message that has not been seen to leave the hardware queue.
struct Watched {
    /// It was accepted as the i-th of the run.
    number: u64,
    /// The place p that it joined at.
    place: u64,
    /// "Ticks that followed it."
    ticks: u64,
}

/// "The hardware queue in memory is the accepted messages of all groups, in order, without the
/// first left", and a message that joined at place p leaves within p times 256 ticks.
#[test]
fn every_message_leaves_the_hardware_queue_in_order_and_in_time() {
    for run in random_runs(3, 1000) {
        let mut memory = power_on();
        let mut accepted: Vec<Message> = Vec::new();
        let mut left = 0;
        let mut watched: VecDeque<Watched> = VecDeque::new();
        for operation in run {
            let report = memory::step(&mut memory, &operation);
            if report.accepted() {
                follow(&operation, left, &mut accepted, &mut watched);
                left += u64::from(report.moved);
                left += u64::from(operation == Operation::Dispose && report.trap == Trap::None);
            }
            let node = memory::read(&memory).expect("a step leaves a node");
            assert!(node.queue.iter().eq(&accepted[left as usize..]));
            watched.retain(|message| message.number > left);
            for message in &watched {
                assert!(message.ticks < message.place * 256, "{operation:?}");
            }
        }
    }
}

/// Takes down an accepted arrival, or ticks for those that wait.
fn follow(
    operation: &Operation,
    left: u64,
    accepted: &mut Vec<Message>,
    watched: &mut VecDeque<Watched>,
) {
    match operation {
        Operation::Arrival { group, words } => {
            accepted.push(Message {
                group: *group as usize,
                words: words.clone(),
            });
            let number = accepted.len() as u64;
            watched.push_back(Watched {
                number,
                place: number - left,
                ticks: 0,
            });
        }
        Operation::Ticks { count } => {
            for message in watched {
                message.ticks += u64::from(*count);
            }
        }
        _ => {}
    }
}
