//! The bursts that random scripts are made of: a few lines that lead somewhere.

use std::collections::VecDeque;

use crate::node::{Node, FRAMES, TIMEOUT};
use crate::random::Random;
use crate::script::{self, LONGEST_LINE};

pub type Burst = fn(&mut Lines);

/// A source of lines.
pub struct Lines {
    random: Random,
    /// The node after all lines so far, so that a burst can see what it starts from.
    node: Node,
    /// What a burst has written and nobody has taken yet.
    ready: VecDeque<Vec<u8>>,
}

impl Lines {
    pub fn new(seed: u64) -> Self {
        Lines {
            random: Random::new(seed),
            node: Node::power_on(),
            ready: VecDeque::new(),
        }
    }

    /// The next line, of one of the bursts when the last one's are used up.
    pub fn next_line(&mut self, bursts: &[(u64, Burst)]) -> Vec<u8> {
        loop {
            if let Some(line) = self.ready.pop_front() {
                return line;
            }
            self.burst(bursts);
        }
    }

    /// One of the bursts, drawn by their weights.
    fn burst(&mut self, bursts: &[(u64, Burst)]) {
        let weights = bursts.iter().map(|(weight, _)| weight).sum();
        let mut drawn = self.random.between(1, weights);
        for (weight, burst) in bursts {
            if drawn <= *weight {
                return burst(self);
            }
            drawn -= weight;
        }
    }

    fn push(&mut self, line: impl Into<Vec<u8>>) {
        let line = line.into();
        self.node.step(&script::read(&line));
        self.ready.push_back(line);
    }

    /// A line of a letter and numbers, here and there with leading zeros.
    fn line(&mut self, letter: char, numbers: &[u64]) {
        let mut line = letter.to_string();
        for number in numbers {
            let width = if self.random.one_in(32) { 10 } else { 1 };
            line += &format!(",{number:0width$}");
        }
        self.push(line);
    }

    fn word(&mut self) -> u64 {
        match self.random.between(1, 4) {
            1 => self
                .random
                .pick(&[0, 1, 0x7fff_ffff, 0x8000_0000, 0xffff_ffff]),
            2 => self.random.between(0, 99),
            _ => self.random.draw() >> 32,
        }
    }

    fn group(&mut self) -> u64 {
        self.random.between(1, 8)
    }

    fn running(&self) -> u64 {
        self.node.running as u64
    }

    fn waiting(&self, group: u64) -> usize {
        self.node.line(group as usize).count()
    }
}

/// Single lines: each operation of the paper's table, most often as it is accepted.
impl Lines {
    /// Any operation, each as often as the others.
    pub fn any(&mut self) {
        self.burst(&[
            (11, Lines::arrival),
            (1, Lines::odd_arrival),
            (12, Lines::preempt),
            (12, Lines::dispatch),
            (12, Lines::switch),
            (12, Lines::tick),
            (12, Lines::message_length),
            (12, Lines::message_word),
            (12, Lines::dispose),
            (12, Lines::begin_atomic),
            (12, Lines::end_atomic),
            (12, Lines::describe),
            (12, Lines::launch),
            (12, Lines::turn),
        ]);
    }

    fn arrival_of(&mut self, group: u64, words: u64) {
        let mut numbers = vec![group];
        for _ in 0..words {
            numbers.push(self.word());
        }
        self.line('A', &numbers);
    }

    fn arrival_for(&mut self, group: u64) {
        let words = self.random.between(1, 8);
        self.arrival_of(group, words);
    }

    /// An arrival for any group, but often for the one that runs.
    pub fn arrival(&mut self) {
        let running = self.running();
        let group = if running > 0 && self.random.one_in(2) {
            running
        } else {
            self.group()
        };
        self.arrival_for(group);
    }

    /// An arrival that is refused for its group or its words.
    pub fn odd_arrival(&mut self) {
        let group = self.random.pick(&[1, 4, 5, 8, 0, 9, 256, 0xffff_ffff]);
        let words = self.random.pick(&[0, 9, 10]);
        self.arrival_of(group, words);
    }

    pub fn preempt(&mut self) {
        self.line('O', &[]);
    }

    fn dispatch_to(&mut self, group: u64) {
        self.line('I', &[group]);
    }

    pub fn dispatch(&mut self) {
        let group = match self.random.between(1, 12) {
            1 => self.random.pick(&[0, 9, 10, 64, 256, 0xffff_ffff]),
            _ => self.group(),
        };
        self.dispatch_to(group);
    }

    fn switch_to(&mut self, group: u64) {
        self.line('S', &[group]);
    }

    pub fn switch(&mut self) {
        let group = match self.random.between(1, 12) {
            1 => self.random.pick(&[9, 10, 64, 256, 0xffff_ffff]),
            2 => self.running(),
            3 => 0,
            _ => self.group(),
        };
        self.switch_to(group);
    }

    fn ticks(&mut self, count: u64) {
        self.line('T', &[count]);
    }

    pub fn tick(&mut self) {
        let count = match self.random.between(1, 5) {
            1 => self
                .random
                .pick(&[0, 1, 65_534, 65_535, 65_536, 0xffff_ffff]),
            2 => self.random.between(253, 258),
            3 => self.random.between(1, 600),
            _ => self.random.between(1, 20),
        };
        self.ticks(count);
    }

    fn message_length(&mut self) {
        self.line('M', &[]);
    }

    fn message_word(&mut self) {
        let far = self.random.pick(&[8, 9, 256, 0xffff_ffff]);
        let near = self.random.between(0, 7);
        let index = if self.random.one_in(20) { far } else { near };
        self.line('E', &[index]);
    }

    pub fn dispose(&mut self) {
        self.line('D', &[]);
    }

    /// Most often plain, else with its field.
    fn begin_atomic(&mut self) {
        if self.random.one_in(4) {
            let force = self.random.between(0, 1);
            self.line('B', &[force]);
        } else {
            self.line('B', &[]);
        }
    }

    pub fn begin_forced(&mut self) {
        self.line('B', &[1]);
    }

    pub fn end_atomic(&mut self) {
        self.line('N', &[]);
    }

    fn describe(&mut self) {
        let word = self.word();
        self.line('P', &[word]);
    }

    fn launch(&mut self) {
        let far = self.random.pick(&[64, 65, 128, 0xffff_ffff]);
        let near = self.random.between(0, 63);
        let node = if self.random.one_in(8) { far } else { near };
        self.line('L', &[node]);
    }

    fn turn(&mut self) {
        self.line('C', &[]);
    }
}

/// Bursts of more lines.
impl Lines {
    /// Gives a group the processor and empties its line, so that it is direct.
    fn take_over(&mut self) -> u64 {
        let (one, other) = (self.group(), self.group());
        let group = std::cmp::min_by_key(one, other, |&group| self.waiting(group));
        self.empty_line(group);
        group
    }

    /// Gives a group the processor, and it disposes of all its messages.
    fn empty_line(&mut self, group: u64) {
        self.switch_to(group);
        for _ in 0..self.waiting(group) {
            self.dispose();
        }
    }

    /// The fullest line is emptied: room for all others.
    pub fn clear(&mut self) {
        let fullest = (1..=8).max_by_key(|&group| self.waiting(group));
        self.empty_line(fullest.unwrap_or(0));
    }

    /// The processor goes round, and each time C is asked who is the next with mail.
    pub fn turns(&mut self) {
        for _ in 0..self.random.between(2, 8) {
            self.switch();
            self.turn();
        }
    }

    /// All lines are emptied. Then a few messages come and go, and C is asked whose are left.
    pub fn lull(&mut self) {
        for group in 1..=8 {
            if self.waiting(group) > 0 {
                self.empty_line(group);
            }
        }
        for _ in 0..self.random.between(4, 16) {
            self.turn();
            self.burst(&[
                (4, Lines::arrival),
                (3, Lines::dispose),
                (2, Lines::switch),
                (1, Lines::preempt),
            ]);
        }
    }

    /// A group reads its messages as they come.
    pub fn serve(&mut self) {
        self.take_over();
        for _ in 0..self.random.between(4, 24) {
            self.burst(&[
                (6, Lines::arrival),
                (1, Lines::message_length),
                (2, Lines::message_word),
                (5, Lines::dispose),
                (2, Lines::end_atomic),
                (1, Lines::begin_atomic),
                (1, Lines::tick),
            ]);
        }
    }

    /// Arrivals that pass through to the buffers.
    pub fn flood(&mut self) {
        if self.random.one_in(2) {
            self.switch_to(0);
        }
        for _ in 0..self.random.between(5, 40) {
            let group = self.group();
            self.arrival_for(group);
        }
    }

    /// Arrivals for one group or two until no frame is free, and so many more that older pages are
    /// sent out, at times all of them but the runner's first. Then C, while first pages are out.
    pub fn spill(&mut self) {
        // A runner that is buffered leaves nothing in the hardware queue, as nobody does.
        let runner = self.group();
        let is_buffered = self.node.groups[runner as usize - 1].buffer.messages > 0;
        self.switch_to(if is_buffered { runner } else { 0 });
        // Last pages with room, which others push out.
        for group in 1..=8 {
            if group != self.running() {
                self.arrival_for(group);
            }
        }
        let groups = [self.group(), self.group()];
        let (few, many) = (self.random.between(8, 60), self.random.between(240, 400));
        let mut more = self.random.pick(&[few, many, many]);
        while more > 0 && !self.node.swap_free.is_empty() {
            if self.node.free.is_empty() {
                more -= 1;
            }
            let group = self.random.pick(&groups);
            self.arrival_for(group);
        }
        self.turn();
    }

    /// Messages for the groups whose last pages are out; most often the shortest line is emptied before, so
    /// that a frame is free.
    pub fn rewrite(&mut self) {
        if !self.random.one_in(4) {
            let waiting = (1..=8).filter(|&group| self.waiting(group) > 0);
            let shortest = waiting.min_by_key(|&group| self.waiting(group));
            self.empty_line(shortest.unwrap_or(0));
        }
        self.switch_to(0);
        self.arrivals_for_last_pages_out();
    }

    fn arrivals_for_last_pages_out(&mut self) {
        for group in 1..=8 {
            if self.last_page_is_out(group) {
                self.arrival_for(group);
            }
        }
    }

    fn last_page_is_out(&self, group: u64) -> bool {
        let pages = &self.node.groups[group as usize - 1].buffer.pages;
        pages.back().is_some_and(|&last| last >= FRAMES)
    }

    /// The processor goes, by one line or by two, to a group whose first page has been in a frame longest,
    /// while messages wait that need a frame and none is free: that page goes out and comes in.
    pub fn displace(&mut self) {
        let runner = self.take_over();
        let Some(next) = self.nearest_victim() else {
            return;
        };
        while !self.is_victim(next) && self.has_page_left() {
            let another = 1 + (runner + self.random.between(0, 6)) % 8;
            self.arrival_for(another);
        }
        self.arrival_for(runner);
        self.arrivals_for_last_pages_out();
        if self.random.one_in(3) {
            self.preempt();
            self.dispatch_to(next);
        } else {
            self.switch_to(next);
        }
    }

    /// How many frames were entered before that of the group's first page, if that is in one.
    fn entered_before(&self, group: u64) -> Option<usize> {
        let first = self.node.groups[group as usize - 1].buffer.pages.front()?;
        self.node.entry.iter().position(|frame| frame == first)
    }

    /// The group whose first page is the next to be sent out, after the fewest others.
    fn nearest_victim(&self) -> Option<u64> {
        let owners = (1..=8).filter(|&group| self.entered_before(group).is_some());
        owners.min_by_key(|&group| self.entered_before(group))
    }

    fn is_victim(&self, group: u64) -> bool {
        self.node.free.is_empty() && self.entered_before(group) == Some(0)
    }

    fn has_page_left(&self) -> bool {
        !(self.node.free.is_empty() && self.node.swap_free.is_empty())
    }

    /// Arrivals until all frames are taken, and some more: the oldest pages are sent out.
    pub fn fill(&mut self) {
        self.arrivals_while(|lines| !lines.node.free.is_empty());
    }

    /// Arrivals until all pages are taken, and some more.
    pub fn brim(&mut self) {
        self.arrivals_while(Lines::has_page_left);
    }

    /// Nobody runs meanwhile.
    fn arrivals_while(&mut self, has_room: fn(&Lines) -> bool) {
        self.switch_to(0);
        while has_room(self) {
            self.arrival();
        }
        for _ in 0..self.random.between(5, 40) {
            self.arrival();
        }
    }

    /// Arrivals behind a message that its group does not dispose of.
    pub fn crowd(&mut self) {
        let group = self.take_over();
        self.begin_atomic();
        self.arrival_for(group);
        for _ in 0..self.random.between(10, 24) {
            self.arrival();
        }
        if self.random.one_in(3) {
            self.tick();
        }
    }

    /// A group disposes of many messages, now and then ending its atomic section.
    pub fn drain(&mut self) {
        let group = self.group();
        self.switch_to(group);
        for _ in 0..self.random.between(1, 40) {
            self.burst(&[
                (12, Lines::dispose),
                (3, Lines::end_atomic),
                (1, Lines::message_length),
                (2, Lines::message_word),
                (1, Lines::arrival),
            ]);
        }
    }

    /// Two groups take turns while messages arrive for both.
    pub fn exchange(&mut self) {
        let turns = [self.group(), self.group()];
        for _ in 0..self.random.between(2, 10) {
            let group = self.random.pick(&turns);
            match self.random.between(1, 5) {
                1 | 2 => self.switch_to(group),
                3 | 4 => self.arrival_for(group),
                _ => self.dispose(),
            }
        }
    }

    /// The processor is taken and given by two lines; at times messages come while nobody has it.
    pub fn hand_over(&mut self) {
        self.preempt();
        for _ in 0..self.random.between(0, 2) {
            self.arrival();
        }
        self.dispatch();
    }

    /// Two rows of ticks that together reach the timeout or just miss it, with a line between them
    /// that sets the timer back or must not.
    pub fn brink(&mut self) {
        let group = self.take_over();
        self.arrival_for(group);
        self.arrival();
        let before = self.random.between(1, 255);
        self.ticks(before);
        self.burst(&[
            (2, Lines::dispose),
            (2, Lines::begin_atomic),
            (2, Lines::end_atomic),
            (2, Lines::arrival),
            (1, Lines::message_length),
            (1, Lines::odd_arrival),
            (3, Lines::switch),
        ]);
        let both = self.random.between(before.max(253) + 1, 258);
        self.ticks(both - before);
        if self.random.one_in(2) {
            self.ticks(1);
        }
    }

    /// A group that holds on to its atomic section.
    pub fn hog(&mut self) {
        self.take_over();
        self.begin_atomic();
        for _ in 0..self.random.between(4, 16) {
            self.burst(&[
                (6, Lines::arrival),
                (3, Lines::tick),
                (1, Lines::begin_atomic),
                (2, Lines::end_atomic),
                (1, Lines::message_length),
                (1, Lines::message_word),
                (1, Lines::dispose),
            ]);
        }
    }

    /// A section with its timer forced, and what must leave the timer, set it back or end it all.
    pub fn force(&mut self) {
        self.take_over();
        self.begin_forced();
        for _ in 0..self.random.between(4, 16) {
            self.burst(&[
                (6, Lines::ticks_to_timeouts),
                (2, Lines::tick),
                (3, Lines::arrival),
                (2, Lines::dispose),
                (2, Lines::end_atomic),
                (2, Lines::begin_forced),
                (1, Lines::begin_atomic),
                (1, Lines::message_length),
                (2, Lines::lend_processor),
            ]);
        }
    }

    /// So many ticks that a timer that runs comes to about a timeout, the next or one behind it.
    fn ticks_to_timeouts(&mut self) {
        let timeouts = self.random.between(1, 4);
        let left = timeouts * u64::from(TIMEOUT) - u64::from(self.node.timer);
        let count = self.random.between(left.saturating_sub(2).max(1), left + 2);
        self.ticks(count);
    }

    /// The processor goes elsewhere and comes back, by S or by O and I; at times a message has come
    /// meanwhile.
    fn lend_processor(&mut self) {
        let group = self.running();
        let by_switches: (Burst, fn(&mut Lines, u64)) = (Lines::switch, Lines::switch_to);
        let by_acts: (Burst, fn(&mut Lines, u64)) = (Lines::preempt, Lines::dispatch_to);
        let (take, give) = self.random.pick(&[by_switches, by_acts]);
        take(self);
        if self.random.one_in(3) {
            self.arrival();
        }
        give(self, group);
    }

    /// Every word of a group's first messages, and one past them.
    pub fn read_out(&mut self) {
        let group = self.group();
        self.switch_to(group);
        for _ in 0..self.random.between(1, 3) {
            self.message_length();
            let length = self
                .node
                .line(group as usize)
                .next()
                .map_or(0, <[u32]>::len);
            for index in 0..=length as u64 {
                self.line('E', &[index]);
            }
            self.dispose();
        }
    }

    /// A descriptor filled and launched; at times the processor is lost between.
    pub fn send(&mut self) {
        for _ in 0..self.random.between(0, 9) {
            self.describe();
        }
        if self.random.one_in(4) {
            self.switch();
        }
        self.launch();
    }
}

/// Lines that are unreadable, or as near to it as a readable one can be.
impl Lines {
    pub fn bad(&mut self) {
        let line = match self.random.between(1, 9) {
            1 => Vec::new(),
            2 => self.noise(),
            3 => self.long(),
            4 | 5 => self.spoiled(),
            6 => self.miscounted(),
            7 => self.misnumbered(),
            8 => self.dressed(),
            _ => self.unknown(),
        };
        self.push(line);
    }

    /// Any byte but the newline, which would end the line.
    fn odd_byte(&mut self) -> u8 {
        let telling = self.random.pick(b"\0\t\r ,,09AaSs+-.\"\x7f\x80\xff");
        let any = self.random.between(0, 255) as u8;
        if any == b'\n' || self.random.one_in(2) {
            telling
        } else {
            any
        }
    }

    fn noise(&mut self) -> Vec<u8> {
        let length = self.random.between(1, 24);
        (0..length).map(|_| self.odd_byte()).collect()
    }

    /// A line around the longest that is read, or far beyond it.
    fn long(&mut self) -> Vec<u8> {
        let longest = LONGEST_LINE as u64;
        let near = self.random.between(longest - 3, longest + 3);
        let far = self.random.between(longest, 20_000);
        let length = if self.random.one_in(16) { far } else { near };
        let mut line = self.random.pick(&["A,1", "A,01", "x", "S"]).to_string();
        while line.len() < length as usize {
            line += ",1";
        }
        line.truncate(length as usize);
        line.into()
    }

    /// A line of any operation, not one of this script.
    fn sample(&mut self) -> Vec<u8> {
        Lines::new(self.random.draw()).next_line(&[(1, Lines::any)])
    }

    /// A readable line with one byte changed, added or gone.
    fn spoiled(&mut self) -> Vec<u8> {
        let mut line = self.sample();
        let at = self.random.between(1, line.len() as u64) as usize - 1;
        match self.random.between(1, 3) {
            1 => line[at] = self.odd_byte(),
            2 => line.insert(at, self.odd_byte()),
            _ => drop(line.remove(at)),
        }
        line
    }

    /// A readable line with a blank, a carriage return or the like at one end.
    fn dressed(&mut self) -> Vec<u8> {
        let mut line = self.sample();
        let at = self.random.pick(&[0, line.len()]);
        line.insert(at, self.random.pick(b" \t\r\0;"));
        line
    }

    fn miscounted(&mut self) -> Vec<u8> {
        let lines =
            "A S T E P L I S,1,2 T,1,1 E,0,0 P,1,2 L,1,2 I,1,1 M,0 D,1 O,1 C,0 B, B,1,1 B,0, N,1 N, M, \
                     O, C, A, A,1, A,1,,2 S, I, , ,1 S,1, I,1,";
        self.one_of(lines)
    }

    fn misnumbered(&mut self) -> Vec<u8> {
        let mut line = self.one_of("A,1, A, I, S, T, E, B, P, L,");
        line.extend(self.one_of(
            "2 4294967295 4294967296 9999999999 0000000001 00000000001 42949672950 -1 +1 0x1 1.0 \
             1e1 one \u{663}",
        ));
        line
    }

    fn unknown(&mut self) -> Vec<u8> {
        let mut line = self.one_of("X Z a s m o i c MM OI CC 0 AS ?");
        line.extend(self.random.pick(&["", ",1", ",1,7"]).bytes());
        line
    }

    /// One of some words parted by blanks.
    fn one_of(&mut self, words: &str) -> Vec<u8> {
        let words: Vec<&str> = words.split_whitespace().collect();
        self.random.pick(&words).into()
    }
}
