//! The paper's "The node" as ordinary records, and its "Each step", with the orders that have changed
//! them: order 1, swap space, order 2, the forced timer, order 3, wiped frames, order 5, two operations
//! for S, and order 7, whose turn.

use std::collections::VecDeque;

/// "Groups are 1 to 8."
pub const GROUPS: usize = 8;
/// "A message has a group and 1 to 8 words."
pub const MESSAGE_WORDS: usize = 8;
/// "The hardware queue holds at most 16 messages of all groups."
pub const QUEUE_PLACES: usize = 16;
/// "There are 32 page frames."
pub const FRAMES: usize = 32;
/// "there are now 64 swap pages"
pub const SWAP_PAGES: usize = 64;
/// Where a page can be: in a frame, numbered below [`FRAMES`], or in a swap page, numbered from there
/// on. "Answer 6 and the memory test now read 96 for 32."
pub const PAGES: usize = FRAMES + SWAP_PAGES;
/// "A frame holds 8 messages." "Pages go whole", so a swap page does too.
pub const PAGE_PLACES: usize = 8;
/// "a descriptor of 0 to 8 words"
pub const DESCRIPTOR_WORDS: usize = 8;
/// "At 256: timeout"
pub const TIMEOUT: u32 = 256;
/// "n single ticks, 1 to 65,535"
pub const MOST_TICKS: u32 = 65_535;
/// "node 0 to 63"
pub const LAST_NODE: u32 = 63;

/// The operations of the paper's table, with the numbers as they were asked for.
#[derive(Clone, Debug, PartialEq, Eq)]
pub enum Operation {
    Arrival {
        group: u32,
        words: Vec<u32>,
    },
    /// O: takes the processor.
    Preempt,
    /// I: gives it.
    Dispatch {
        group: u32,
    },
    /// S: a line of these two acts.
    Switch {
        group: u32,
    },
    Ticks {
        count: u32,
    },
    MessageLength,
    MessageWord {
        index: u32,
    },
    Dispose,
    /// "`B,1` turns force on, `B,0` and plain `B` leave it"
    BeginAtomic {
        force: bool,
    },
    EndAtomic,
    Describe {
        word: u32,
    },
    Launch {
        node: u32,
    },
    /// C: tells "who has mail".
    Turn,
    /// "unknown operation or unreadable line"
    Unknown,
}

/// "Who can cause a refusal": the answers other than 0.
#[derive(Clone, Copy, Debug, PartialEq, Eq)]
pub enum Refusal {
    NotANode = 1,
    Unknown = 2,
    ArrivalGroup = 3,
    ArrivalWords = 4,
    QueueFull = 5,
    PagesPledged = 6,
    NobodyRuns = 7,
    LineEmpty = 8,
    PastMessage = 9,
    UpcallPending = 10,
    DescriptorFull = 11,
    DescriptorEmpty = 12,
    LaunchNode = 13,
    ProcessorGroup = 14,
    TickCount = 15,
    AlreadyRuns = 16,
}

/// "Trap: 1 dispose-extend, .. 2 atomicity-extend, .. 3 timeout, on T; else 0."
#[derive(Clone, Copy, Debug, Default, PartialEq, Eq)]
pub enum Trap {
    #[default]
    None = 0,
    DisposeExtend = 1,
    AtomicityExtend = 2,
    Timeout = 3,
}

/// What an accepted launch sends.
#[derive(Clone, Debug, PartialEq, Eq)]
pub struct Launched {
    pub node: u32,
    pub group: u32,
    pub words: Vec<u32>,
}

/// What happens in a step with a place or a page, by force or a revoked group, where the processor is
/// taken and given, or where C looks for mail. No listing tells it; it is counted, so that scripts are
/// seen to meet each.
#[derive(Clone, Copy, Debug, PartialEq, Eq)]
pub enum Event {
    /// E reads a word of a message that stands there.
    WordRead(Standing),
    /// D uses up a place of a page that stays in the buffer.
    PlaceUsedUp,
    /// D uses up the last place of a page, and messages remain.
    PageUsedUp,
    /// D uses up the place of a buffer's last message.
    BufferEmptied,
    SentOut,
    /// Into a free frame.
    BroughtIn(Cause),
    Exchanged(Cause),
    /// A timeout that finds nothing to move.
    IdleTimeout,
    /// A timeout of a T that had one already.
    FurtherTimeout,
    /// Settling leaves a timer above 0 with an empty queue.
    TimerLeft,
    /// N takes such a timer back to 0.
    TimerEnded,
    /// The processor comes to a group that has force on.
    ForceKept,
    /// A message leaves the queue since its group is revoked: it has none in its buffer, and runs.
    RevokedMoved,
    /// N of a revoked group with no message in its buffer.
    RevokedEnded,
    /// O finds messages in the hardware queue.
    QueueTaken,
    /// O, a line of its own, finds nobody running.
    NobodyTaken,
    /// O finds a timer above 0 with an empty queue.
    TimerTaken,
    /// S takes the processor from one group and gives it to another.
    TwoActs,
    /// S to the one running, with messages in the hardware queue.
    QueueKept,
    /// The first page of the group that S names is sent out by its O.
    NewRunnerSentOut,
    /// C finds nobody running.
    TurnOfNobody,
    /// C finds no mail.
    NoMail,
    /// C finds mail of the running group, which it looks at last.
    OwnMail,
    /// C finds mail of a group that it came to by going on from 8 to 1.
    MailRound,
    /// C finds mail of a group that has it in the hardware queue alone.
    MailQueued,
    /// C finds mail of a group whose first page is in a swap page.
    MailInSwap,
}

/// Where the running group's first message stands.
#[derive(Clone, Copy, Debug, PartialEq, Eq)]
pub enum Standing {
    /// At the head of the hardware queue.
    Queued,
    /// In the first place of its buffer's first page.
    FirstPlace,
    /// In a later place of that page: those before it are used up.
    BehindUsedUp,
}

/// Why a page is brought in: "before it is written", or as "a running group's first page".
#[derive(Clone, Copy, Debug, PartialEq, Eq)]
pub enum Cause {
    Write,
    /// D has used up the page before it.
    Next,
    /// I has given its group the processor.
    Given,
}

/// What happens to the head of the hardware queue. No listing tells it; [`crate::why`] finds the reasons
/// in it.
#[derive(Clone, Copy, Debug, PartialEq, Eq)]
pub enum Passage {
    /// A message becomes head; whether its group runs then.
    BecameHead { runs: bool },
    /// D disposes of the head.
    Disposed,
    /// The head moves to its group's buffer.
    Moved(Move),
}

/// What holds as a message moves.
#[derive(Clone, Copy, Debug, PartialEq, Eq)]
pub struct Move {
    pub by: Mover,
    /// Older ones of its group wait in the buffer.
    pub older: bool,
    pub revoked: bool,
}

#[derive(Clone, Copy, Debug, PartialEq, Eq)]
pub enum Mover {
    Timeout,
    /// The settling of an act that took the processor from a group.
    Take,
    /// The settling of any other act.
    Settling,
}

/// A step's report. Its default is that of an accepted step of which nothing is to be told.
#[derive(Clone, Debug, Default, PartialEq, Eq)]
pub struct Report {
    pub answer: u32,
    pub value: u32,
    pub trap: Trap,
    pub upcall: u32,
    pub moved: u32,
    pub launched: Option<Launched>,
    /// In the order in which they happened; no part of the listing.
    pub events: Vec<Event>,
    /// What happened to heads of the hardware queue, likewise.
    pub passages: Vec<Passage>,
}

impl Report {
    /// "A refused step reports its number and zeros."
    pub fn refused(refusal: Refusal) -> Self {
        Report {
            answer: refusal as u32,
            ..Report::default()
        }
    }

    pub fn accepted(&self) -> bool {
        self.answer == 0
    }

    fn of_value(value: u32) -> Self {
        Report {
            value,
            ..Report::default()
        }
    }

    fn of_trap(trap: Trap) -> Self {
        Report {
            trap,
            ..Report::default()
        }
    }
}

/// A message in the hardware queue.
#[derive(Clone, Debug, PartialEq, Eq)]
pub struct Message {
    pub group: usize,
    pub words: Vec<u32>,
}

/// One of a page's eight places: a waiting message, or 0 throughout.
#[derive(Clone, Copy, Debug, Default, PartialEq, Eq)]
pub struct Place {
    pub length: u32,
    pub words: [u32; MESSAGE_WORDS],
}

impl Place {
    fn holding(message: &[u32]) -> Self {
        let mut place = Place {
            length: message.len() as u32,
            ..Place::default()
        };
        place.words[..message.len()].copy_from_slice(message);
        place
    }

    fn message(&self) -> &[u32] {
        &self.words[..self.length as usize]
    }
}

pub type Page = [Place; PAGE_PLACES];

/// "Each group has a virtual buffer: a list of frames, filled in order." Some of its pages may be in
/// swap pages now.
#[derive(Clone, Debug, Default, PartialEq, Eq)]
pub struct Buffer {
    /// h: "the used-up places before the first".
    pub used_up: usize,
    /// n: "its messages".
    pub messages: usize,
    pub pages: VecDeque<usize>,
}

impl Buffer {
    /// Where the messages stand: a page, and a place in it.
    fn places(&self) -> impl Iterator<Item = (usize, usize)> + '_ {
        let places = self.used_up..self.used_up + self.messages;
        places.map(|place| (self.pages[place / PAGE_PLACES], place % PAGE_PLACES))
    }

    /// The place in the last page that the next message goes to; 0 is that of a page to come.
    fn next_place(&self) -> usize {
        (self.used_up + self.messages) % PAGE_PLACES
    }

    /// Uses up the first message's place: "A frame whose places are all used up is freed; when n
    /// becomes 0 its last frame is freed too." The page goes from the list then.
    fn use_up_first(&mut self) -> Event {
        self.used_up += 1;
        self.messages -= 1;
        let event = match self.messages {
            0 => Event::BufferEmptied,
            _ if self.used_up == PAGE_PLACES => Event::PageUsedUp,
            _ => return Event::PlaceUsedUp,
        };
        self.used_up = 0;
        self.pages.pop_front();
        event
    }
}

/// A group's flags, buffer and descriptor: "All survive the loss of the processor."
#[derive(Clone, Debug, Default, PartialEq, Eq)]
pub struct Group {
    pub atomic: bool,
    pub pending: bool,
    /// "FUGU's timer-force flag, which times a section with no message waiting"
    pub force: bool,
    /// A timeout came while it ran; "it counts as buffered, empty or not, until its next accepted N".
    pub revoked: bool,
    pub buffer: Buffer,
    pub descriptor: Vec<u32>,
}

/// "(h + n + k) / 8 rounded up": the pages that so many places ask for.
pub fn pages_for(places: u64) -> u64 {
    places.div_ceil(PAGE_PLACES as u64)
}

#[derive(Clone, Debug, PartialEq, Eq)]
pub struct Node {
    /// "The running group is 0 (nobody) or one of them."
    pub running: usize,
    pub timer: u32,
    pub queue: VecDeque<Message>,
    pub free: VecDeque<usize>,
    /// "swap pages are taken and freed in a line, as frames are"
    pub swap_free: VecDeque<usize>,
    /// "the order of entry into frames": the frames in use, the one that was entered first first.
    pub entry: VecDeque<usize>,
    /// "pages sent out and brought in so far (an exchange is one of each)"
    pub sent_out: u32,
    pub brought_in: u32,
    /// Group g stands at g - 1.
    pub groups: [Group; GROUPS],
    pub pages: [Page; PAGES],
    /// What has happened in the step under way so far: nothing between steps.
    pub(crate) events: Vec<Event>,
    pub(crate) passages: Vec<Passage>,
}

impl Node {
    /// "At power-on nobody runs, every queue, buffer, flag and descriptor is empty or off, all
    /// message words are 0." The free line is 0 to 31, the swap line all swap pages in order.
    pub fn power_on() -> Self {
        Node {
            running: 0,
            timer: 0,
            queue: VecDeque::new(),
            free: (0..FRAMES).collect(),
            swap_free: (FRAMES..PAGES).collect(),
            entry: VecDeque::new(),
            sent_out: 0,
            brought_in: 0,
            groups: Default::default(),
            pages: [Page::default(); PAGES],
            events: Vec::new(),
            passages: Vec::new(),
        }
    }

    /// A step: a refused one changes nothing, "no settling, no upcall".
    pub fn step(&mut self, operation: &Operation) -> Report {
        if let Some(refusal) = self.refusal(operation) {
            return Report::refused(refusal);
        }
        let mut report = match operation {
            Operation::Switch { group } => self.switch(*group),
            _ => self.perform(operation),
        };
        report.events = std::mem::take(&mut self.events);
        report.passages = std::mem::take(&mut self.passages);
        report
    }

    /// "An accepted operation acts, then come settling and the upcall."
    fn perform(&mut self, operation: &Operation) -> Report {
        let before = self.running;
        let mut report = self.act(operation);
        let taken = before > 0 && self.running != before;
        let by = if taken { Mover::Take } else { Mover::Settling };
        report.moved += self.settle(by);
        self.bring_in_first(match operation {
            Operation::Dispatch { .. } => Cause::Given,
            _ => Cause::Next,
        });
        report.upcall = self.upcall();
        report
    }

    /// S: "nothing if g already runs, else O, and I unless g is 0, with the moved counts summed".
    fn switch(&mut self, group: u32) -> Report {
        let before = self.running;
        if group as usize == before {
            if !self.queue.is_empty() {
                self.events.push(Event::QueueKept);
            }
            return Report::default();
        }
        let was_in = self.first_page_is_in(group as usize);
        let taken = self.step(&Operation::Preempt);
        let sent_out = was_in && !self.first_page_is_in(group as usize);
        let given = match group {
            0 => Report::default(),
            _ => self.step(&Operation::Dispatch { group }),
        };
        // That O finds nobody running is counted where it is a line of its own.
        if before > 0 {
            self.events.extend(taken.events);
        }
        if sent_out {
            self.events.push(Event::NewRunnerSentOut);
        }
        if before > 0 && group > 0 {
            self.events.push(Event::TwoActs);
        }
        self.events.extend(given.events);
        self.passages.extend(taken.passages);
        self.passages.extend(given.passages);
        Report {
            upcall: given.upcall,
            moved: taken.moved + given.moved,
            ..Report::default()
        }
    }

    /// "Its line is its buffer, then its messages in the hardware queue." Nobody's line is empty.
    pub fn line(&self, group: usize) -> impl Iterator<Item = &[u32]> {
        let buffered = group
            .checked_sub(1)
            .into_iter()
            .flat_map(|at| self.groups[at].buffer.places())
            .map(|(page, place)| self.pages[page][place].message());
        let queued = self
            .queue
            .iter()
            .filter(move |message| message.group == group)
            .map(|message| message.words.as_slice());
        buffered.chain(queued)
    }

    /// The group's pledge with `more` messages beyond those in the hardware queue.
    fn pledge(&self, group: usize, more: usize) -> u64 {
        let buffer = &self.groups[group - 1].buffer;
        let queued = self.queue.iter().filter(|m| m.group == group).count();
        pages_for((buffer.used_up + buffer.messages + queued + more) as u64)
    }

    /// "A group is buffered while n is above 0, else direct", and a revoked one "counts as buffered,
    /// empty or not".
    fn is_buffered(&self, group: usize) -> bool {
        let group = &self.groups[group - 1];
        group.buffer.messages > 0 || group.revoked
    }

    /// The trap of an operation that the running group begins while buffered.
    fn trap_if_buffered(&self, trap: Trap) -> Trap {
        if self.is_buffered(self.running) {
            trap
        } else {
            Trap::None
        }
    }

    /// Whether a tick counts: with a message in the queue, or "with force on and the group running and
    /// atomic".
    fn timer_runs(&self) -> bool {
        let runner = self.running.checked_sub(1).map(|at| &self.groups[at]);
        !self.queue.is_empty() || runner.is_some_and(|group| group.force && group.atomic)
    }

    /// The refusals in the paper's order; 1 is the keeper's and was tested before.
    fn refusal(&self, operation: &Operation) -> Option<Refusal> {
        match operation {
            Operation::Unknown => Some(Refusal::Unknown),
            Operation::Arrival { group, words } => self.arrival_refusal(*group, words),
            Operation::Preempt | Operation::Turn => None,
            Operation::Dispatch { group } => self.dispatch_refusal(*group),
            Operation::Switch { group } => {
                (*group > GROUPS as u32).then_some(Refusal::ProcessorGroup)
            }
            Operation::Ticks { count } if !(1..=MOST_TICKS).contains(count) => {
                Some(Refusal::TickCount)
            }
            Operation::Ticks { .. } => None,
            _ if self.running == 0 => Some(Refusal::NobodyRuns),
            _ => self.user_refusal(operation),
        }
    }

    /// "It refuses I with 16 when a group already runs, after 14 for a group outside 1 to 8."
    fn dispatch_refusal(&self, group: u32) -> Option<Refusal> {
        if !(1..=GROUPS as u32).contains(&group) {
            Some(Refusal::ProcessorGroup)
        } else if self.running > 0 {
            Some(Refusal::AlreadyRuns)
        } else {
            None
        }
    }

    fn arrival_refusal(&self, group: u32, words: &[u32]) -> Option<Refusal> {
        if !(1..=GROUPS as u32).contains(&group) {
            Some(Refusal::ArrivalGroup)
        } else if !(1..=MESSAGE_WORDS).contains(&words.len()) {
            Some(Refusal::ArrivalWords)
        } else if self.queue.len() == QUEUE_PLACES {
            Some(Refusal::QueueFull)
        } else if self.pledges_with(group as usize) > PAGES as u64 {
            Some(Refusal::PagesPledged)
        } else {
            None
        }
    }

    /// What the pledges would sum to with one more message for `arriving`.
    fn pledges_with(&self, arriving: usize) -> u64 {
        (1..=GROUPS)
            .map(|group| self.pledge(group, usize::from(group == arriving)))
            .sum()
    }

    /// The refusals of the running group's own operations, 7 apart.
    fn user_refusal(&self, operation: &Operation) -> Option<Refusal> {
        let group = &self.groups[self.running - 1];
        match operation {
            Operation::Dispose => self.first().is_none().then_some(Refusal::LineEmpty),
            Operation::MessageWord { index } => match self.first() {
                None => Some(Refusal::LineEmpty),
                Some(message) => (*index as usize >= message.len()).then_some(Refusal::PastMessage),
            },
            Operation::EndAtomic => group.pending.then_some(Refusal::UpcallPending),
            Operation::Describe { .. } => {
                (group.descriptor.len() == DESCRIPTOR_WORDS).then_some(Refusal::DescriptorFull)
            }
            Operation::Launch { .. } if group.descriptor.is_empty() => {
                Some(Refusal::DescriptorEmpty)
            }
            Operation::Launch { node } => (*node > LAST_NODE).then_some(Refusal::LaunchNode),
            _ => None,
        }
    }

    /// The words of the first message in the running group's line.
    fn first(&self) -> Option<&[u32]> {
        self.line(self.running).next()
    }

    fn running_group(&mut self) -> &mut Group {
        &mut self.groups[self.running - 1]
    }

    /// The effects of the paper's table, for an operation that is not refused. S has none of its own.
    fn act(&mut self, operation: &Operation) -> Report {
        match operation {
            Operation::Arrival { group, words } => self.arrive(*group as usize, words),
            Operation::Preempt => self.preempt(),
            Operation::Dispatch { group } => self.dispatch(*group as usize),
            Operation::Ticks { count } => self.ticks(*count),
            Operation::MessageLength => {
                Report::of_value(self.first().map_or(0, <[u32]>::len) as u32)
            }
            Operation::MessageWord { index } => self.read_word(*index as usize),
            Operation::Dispose => self.dispose(),
            Operation::BeginAtomic { force } => self.begin_atomic(*force),
            Operation::EndAtomic => self.end_atomic(),
            Operation::Describe { word } => self.describe(*word),
            Operation::Launch { node } => self.launch(*node),
            Operation::Turn => self.turn(),
            Operation::Switch { .. } => unreachable!("S is O and I"),
            Operation::Unknown => unreachable!("an unknown operation was refused"),
        }
    }

    fn arrive(&mut self, group: usize, words: &[u32]) -> Report {
        let words = words.to_vec();
        self.queue.push_back(Message { group, words });
        if self.queue.len() == 1 {
            self.note_head();
        }
        Report::default()
    }

    /// "O takes it from whoever runs (with nobody running, it changes nothing)", and "O zeroes the timer".
    fn preempt(&mut self) -> Report {
        if self.running == 0 {
            self.events.push(Event::NobodyTaken);
            return Report::default();
        }
        if !self.queue.is_empty() {
            self.events.push(Event::QueueTaken);
        } else if self.timer > 0 {
            self.events.push(Event::TimerTaken);
        }
        self.running = 0;
        self.timer = 0;
        Report::default()
    }

    /// "`I,g` gives it to g"
    fn dispatch(&mut self, group: usize) -> Report {
        self.running = group;
        if self.running_group().force {
            self.events.push(Event::ForceKept);
        }
        Report::default()
    }

    /// "n single ticks", all of them: with force on, several timeouts may come in one step.
    fn ticks(&mut self, count: u32) -> Report {
        let mut report = Report::default();
        for _ in 0..count {
            // Nothing in a T makes a timer run that does not.
            if !self.timer_runs() {
                break;
            }
            self.timer += 1;
            if self.timer == TIMEOUT {
                if report.trap == Trap::Timeout {
                    self.events.push(Event::FurtherTimeout);
                }
                report.trap = Trap::Timeout;
                report.moved += self.timeout();
            }
        }
        report
    }

    /// "the whole hardware queue moves to the buffers, timer 0", and "At any timeout the running group
    /// is marked revoked". Returns how many messages moved.
    fn timeout(&mut self) -> u32 {
        let moved = self.queue.len() as u32;
        if moved == 0 {
            self.events.push(Event::IdleTimeout);
        }
        while !self.queue.is_empty() {
            self.buffer_head(Mover::Timeout);
        }
        self.timer = 0;
        // Somebody runs: settled, a queue that isn't empty has a head of the running group's.
        self.running_group().revoked = true;
        moved
    }

    /// "E reads its one word where it stands and copies no message"
    fn read_word(&mut self, index: usize) -> Report {
        self.events.push(Event::WordRead(self.standing_of_first()));
        let message = self.first().expect("an empty line was refused");
        Report::of_value(message[index])
    }

    /// Where the first message in the running group's line stands, if there is one.
    fn standing_of_first(&self) -> Standing {
        let buffer = &self.groups[self.running - 1].buffer;
        match (buffer.messages, buffer.used_up) {
            (0, _) => Standing::Queued,
            (_, 0) => Standing::FirstPlace,
            _ => Standing::BehindUsedUp,
        }
    }

    /// "removes that message; pending off; timer 0"
    fn dispose(&mut self) -> Report {
        let trap = self.trap_if_buffered(Trap::DisposeExtend);
        self.timer = 0;
        let group = self.running_group();
        group.pending = false;
        let buffered = group.buffer.places().next();
        if let Some((frame, place)) = buffered {
            self.dispose_buffered(frame, place);
        } else {
            // Settled: the head of the queue is the running group's.
            self.take_head(Passage::Disposed);
        }
        Report::of_trap(trap)
    }

    /// "Disposing of a message now leaves its place 0, kept length too."
    fn dispose_buffered(&mut self, frame: usize, place: usize) {
        self.pages[frame][place] = Place::default();
        let event = self.running_group().buffer.use_up_first();
        if event != Event::PlaceUsedUp {
            self.entry.retain(|&entered| entered != frame);
            self.free_page(frame);
        }
        self.events.push(event);
    }

    fn begin_atomic(&mut self, force: bool) -> Report {
        let group = self.running_group();
        group.atomic = true;
        group.force |= force;
        Report::default()
    }

    /// "an accepted N turns it off", force, and a revoked group is so "until its next accepted N, which
    /// reports trap 2".
    fn end_atomic(&mut self) -> Report {
        let trap = self.trap_if_buffered(Trap::AtomicityExtend);
        if self.queue.is_empty() && self.timer > 0 {
            self.events.push(Event::TimerEnded);
        }
        let group = self.running_group();
        let revoked_alone = group.revoked && group.buffer.messages == 0;
        group.atomic = false;
        group.force = false;
        group.revoked = false;
        if revoked_alone {
            self.events.push(Event::RevokedEnded);
        }
        Report::of_trap(trap)
    }

    fn describe(&mut self, word: u32) -> Report {
        let descriptor = &mut self.running_group().descriptor;
        descriptor.push(word);
        Report::of_value(descriptor.len() as u32)
    }

    fn launch(&mut self, node: u32) -> Report {
        let group = self.running as u32;
        let words = std::mem::take(&mut self.running_group().descriptor);
        let report = Report::of_value(words.len() as u32);
        Report {
            launched: Some(Launched { node, group, words }),
            ..report
        }
    }

    /// "the first group after the running one, upward and round from 8 to 1, the running one last, that
    /// has a line not empty; 0 if there is none. With nobody running it starts at 1."
    fn turn(&mut self) -> Report {
        let mut order: VecDeque<usize> = (1..=GROUPS).collect();
        order.rotate_left(self.running);
        let found = order.into_iter().find(|&group| self.has_mail(group));
        if self.running == 0 {
            self.events.push(Event::TurnOfNobody);
        }
        match found {
            None => self.events.push(Event::NoMail),
            Some(group) => self.note_mail(group),
        }
        Report::of_value(found.unwrap_or(0) as u32)
    }

    fn has_mail(&self, group: usize) -> bool {
        self.line(group).next().is_some()
    }

    /// Notes how C came to a group, and where that has its mail.
    fn note_mail(&mut self, group: usize) {
        let first_page = self.first_page(group);
        let met = [
            (Event::OwnMail, group == self.running),
            (Event::MailRound, group < self.running),
            (Event::MailQueued, first_page.is_none()),
            (
                Event::MailInSwap,
                first_page.is_some_and(|first| first >= FRAMES),
            ),
        ];
        let met = met.into_iter().filter(|(_, is_met)| *is_met);
        self.events.extend(met.map(|(event, _)| event));
    }

    /// "while the hardware queue has a head that is not the running group's, or whose group is
    /// buffered, that head moves"; returns how many did.
    fn settle(&mut self, by: Mover) -> u32 {
        let mut moved = 0;
        while let Some(head) = self.queue.front().filter(|head| !self.may_stay(head)) {
            let group = head.group;
            if group == self.running && self.groups[group - 1].buffer.messages == 0 {
                self.events.push(Event::RevokedMoved);
            }
            self.buffer_head(by);
            moved += 1;
        }
        self.settle_timer();
        moved
    }

    /// "If the queue is then empty, the timer is 0", but with force on "settling leaves the timer".
    fn settle_timer(&mut self) {
        if !self.timer_runs() {
            self.timer = 0;
        } else if self.queue.is_empty() && self.timer > 0 {
            self.events.push(Event::TimerLeft);
        }
    }

    fn may_stay(&self, head: &Message) -> bool {
        head.group == self.running && !self.is_buffered(head.group)
    }

    /// Moves the head of the hardware queue to the end of its group's buffer.
    fn buffer_head(&mut self, by: Mover) {
        let group = &self.groups[self.queue[0].group - 1];
        let head = self.take_head(Passage::Moved(Move {
            by,
            older: group.buffer.messages > 0,
            revoked: group.revoked,
        }));
        let page = self.page_to_write(head.group);
        let buffer = &mut self.groups[head.group - 1].buffer;
        self.pages[page][buffer.next_place()] = Place::holding(&head.words);
        buffer.messages += 1;
    }

    /// Takes the head off the hardware queue; the message behind it becomes head.
    fn take_head(&mut self, passage: Passage) -> Message {
        let head = self.queue.pop_front().expect("the queue has a head");
        self.passages.push(passage);
        self.note_head();
        head
    }

    /// Notes that the first message in the hardware queue, if there is one, has become head.
    fn note_head(&mut self) {
        if let Some(head) = self.queue.front() {
            let runs = head.group == self.running;
            self.passages.push(Passage::BecameHead { runs });
        }
    }

    /// The frame with the page that the group's next message is written to: a new page, or its last,
    /// which "is brought in before it is written".
    fn page_to_write(&mut self, group: usize) -> usize {
        let buffer = &self.groups[group - 1].buffer;
        match buffer.pages.back() {
            Some(&last) if buffer.next_place() > 0 => self.brought_in(last, Cause::Write),
            _ => {
                let frame = self.taken_frame();
                self.groups[group - 1].buffer.pages.push_back(frame);
                frame
            }
        }
    }

    /// A frame for a new page. "A page needed when no frame is free sends out the page that has been
    /// in a frame longest."
    fn taken_frame(&mut self) -> usize {
        if self.free.is_empty() {
            self.send_out();
        }
        let frame = self.free.pop_front().expect("a frame is free");
        self.entry.push_back(frame);
        frame
    }

    fn send_out(&mut self) {
        let frame = self.left_by_victim();
        // Settling keeps every pledge, and the pledges are never above the pages.
        let swap = self.swap_free.pop_front().expect("a page was pledged");
        self.pages[swap] = self.pages[frame];
        self.trade(frame, swap);
        self.free_page(frame);
        self.events.push(Event::SentOut);
    }

    /// "a frame or swap page left by its page is wiped"; it joins the end of its line.
    fn free_page(&mut self, left: usize) {
        self.pages[left] = Page::default();
        let line = if left < FRAMES {
            &mut self.free
        } else {
            &mut self.swap_free
        };
        line.push_back(left);
    }

    /// "once settling is done, a running group's first page"
    fn bring_in_first(&mut self, cause: Cause) {
        if let Some(first) = self.first_page(self.running) {
            self.brought_in(first, cause);
        }
    }

    /// Where a group's first page is; none for nobody.
    fn first_page(&self, group: usize) -> Option<usize> {
        let group = &self.groups[group.checked_sub(1)?];
        group.buffer.pages.front().copied()
    }

    fn first_page_is_in(&self, group: usize) -> bool {
        self.first_page(group).is_some_and(|first| first < FRAMES)
    }

    /// The frame that a page is in, once it is brought in where it was not: "exchanged with the one so
    /// chosen if no frame is free".
    fn brought_in(&mut self, page: usize, cause: Cause) -> usize {
        if page < FRAMES {
            return page;
        }
        let (frame, event) = match self.free.pop_front() {
            Some(frame) => {
                self.pages[frame] = self.pages[page];
                self.free_page(page);
                (frame, Event::BroughtIn(cause))
            }
            None => {
                let frame = self.left_by_victim();
                self.pages.swap(frame, page);
                (frame, Event::Exchanged(cause))
            }
        };
        self.trade(frame, page);
        self.entry.push_back(frame);
        count(&mut self.brought_in);
        self.events.push(event);
        frame
    }

    /// The frame of the page to go: "the page that has been in a frame longest, except the running
    /// group's first page and the page being written". The latter is new or in a swap page, so in no
    /// frame yet.
    fn left_by_victim(&mut self) -> usize {
        let first = self.first_page(self.running);
        let oldest = self.entry.iter().position(|&frame| Some(frame) != first);
        count(&mut self.sent_out);
        oldest
            .and_then(|at| self.entry.remove(at))
            .expect("all frames are in use, and one at most is spared")
    }

    /// The lists name the one page where they named the other: each goes where the other was.
    fn trade(&mut self, one: usize, other: usize) {
        let lists = self.groups.iter_mut().map(|group| &mut group.buffer.pages);
        for page in lists.flatten() {
            if *page == one {
                *page = other;
            } else if *page == other {
                *page = one;
            }
        }
    }

    /// "if the running group isn't atomic and its line isn't empty, it becomes atomic and pending,
    /// and the report names it"
    fn upcall(&mut self) -> u32 {
        if self.first().is_none() || self.running_group().atomic {
            return 0;
        }
        let group = self.running_group();
        group.atomic = true;
        group.pending = true;
        self.running as u32
    }
}

/// "each count staying at 4,294,967,295 once there"
fn count(so_far: &mut u32) {
    *so_far = so_far.saturating_add(1);
}
