//! docs/MEMORY.md: where each number stands, and a memory seen by that map.

use std::ops::Range;

use crate::node::{
    pages_for, DESCRIPTOR_WORDS, FRAMES, GROUPS, MESSAGE_WORDS, PAGES, PAGE_PLACES, QUEUE_PLACES,
    SWAP_PAGES,
};

/// The words of a node. "Memory past the node's size is never touched."
pub const SIZE: usize = ENTRY_AT + FRAMES;

pub const RUNNING: usize = 0;
pub const TIMER: usize = 1;
pub const QUEUE_COUNT: usize = 2;
pub const FREE_COUNT: usize = 3;
pub const QUEUE_AT: usize = 4;
pub const FREE_AT: usize = QUEUE_AT + QUEUE_PLACES * QUEUED_WORDS;
pub const GROUPS_AT: usize = FREE_AT + FRAMES;
pub const PAGES_AT: usize = GROUPS_AT + GROUPS * GROUP_WORDS;
pub const SWAP_COUNT: usize = PAGES_AT + PAGES * PAGE_PLACES * PLACE_WORDS;
pub const ENTRY_COUNT: usize = SWAP_COUNT + 1;
pub const SENT_OUT: usize = SWAP_COUNT + 2;
pub const BROUGHT_IN: usize = SWAP_COUNT + 3;
pub const SWAP_AT: usize = SWAP_COUNT + 4;
pub const ENTRY_AT: usize = SWAP_AT + SWAP_PAGES;

/// A kept message: its length, then its words.
pub const PLACE_WORDS: usize = 1 + MESSAGE_WORDS;
/// A queued message: its group, then as kept.
pub const QUEUED_WORDS: usize = 1 + PLACE_WORDS;

pub const ATOMIC: usize = 0;
pub const PENDING: usize = 1;
pub const FORCE: usize = 2;
pub const REVOKED: usize = 3;
pub const USED_UP: usize = 4;
pub const MESSAGES: usize = 5;
pub const LIST_COUNT: usize = 6;
pub const DESCRIPTOR_COUNT: usize = 7;
pub const DESCRIPTOR_AT: usize = 8;
pub const LIST_AT: usize = DESCRIPTOR_AT + DESCRIPTOR_WORDS;
pub const GROUP_WORDS: usize = LIST_AT + PAGES;

/// Where a place of the hardware queue begins.
pub fn queued_at(place: usize) -> usize {
    QUEUE_AT + QUEUED_WORDS * place
}

/// Where the record of a group begins.
pub fn group_at(group: usize) -> usize {
    GROUPS_AT + GROUP_WORDS * (group - 1)
}

/// Where a place of a page begins.
pub fn place_at(page: usize, place: usize) -> usize {
    PAGES_AT + PLACE_WORDS * (PAGE_PLACES * page + place)
}

/// The message in a length and the eight words that follow it.
pub fn message(kept: &[u32]) -> &[u32] {
    &kept[1..][..kept[0] as usize]
}

/// What stands at an address, in words.
pub fn what_stands_at(at: usize) -> String {
    match at {
        RUNNING => "the running group".to_string(),
        TIMER => "the timer".to_string(),
        QUEUE_COUNT => "messages in the hardware queue".to_string(),
        FREE_COUNT => "frames in the free line".to_string(),
        QUEUE_AT..FREE_AT => {
            let (place, word) = part(at - QUEUE_AT, QUEUED_WORDS);
            let what = word.checked_sub(1).map_or("group".to_string(), kept_word);
            format!("{what} at place {place} of the hardware queue")
        }
        FREE_AT..GROUPS_AT => format!("place {} of the free line", at - FREE_AT),
        GROUPS_AT..PAGES_AT => {
            let (group, word) = part(at - GROUPS_AT, GROUP_WORDS);
            format!("{} of group {}", record_word(word), group + 1)
        }
        PAGES_AT..SWAP_COUNT => {
            let (place, word) = part(at - PAGES_AT, PLACE_WORDS);
            let (page, place) = part(place, PAGE_PLACES);
            let page = page_name(page);
            format!("{} at place {place} of {page}", kept_word(word))
        }
        SWAP_COUNT => "swap pages in the swap line".to_string(),
        ENTRY_COUNT => "frames in the order of entry".to_string(),
        SENT_OUT => "pages sent out".to_string(),
        BROUGHT_IN => "pages brought in".to_string(),
        SWAP_AT..ENTRY_AT => format!("place {} of the swap line", at - SWAP_AT),
        ENTRY_AT..SIZE => format!("place {} of the order of entry", at - ENTRY_AT),
        _ => "past the node".to_string(),
    }
}

/// Which of the parts of so many words, and which word of it.
fn part(word: usize, words: usize) -> (usize, usize) {
    (word / words, word % words)
}

fn page_name(page: usize) -> String {
    match page.checked_sub(FRAMES) {
        None => format!("frame {page}"),
        Some(swap) => format!("swap page {swap}"),
    }
}

fn kept_word(word: usize) -> String {
    match word {
        0 => "length".to_string(),
        _ => format!("word {}", word - 1),
    }
}

fn record_word(word: usize) -> String {
    match word {
        ATOMIC => "atomic".to_string(),
        PENDING => "pending".to_string(),
        FORCE => "force".to_string(),
        REVOKED => "revoked".to_string(),
        USED_UP => "h".to_string(),
        MESSAGES => "n".to_string(),
        LIST_COUNT => "pages in the list".to_string(),
        DESCRIPTOR_COUNT => "words in the descriptor".to_string(),
        DESCRIPTOR_AT..LIST_AT => format!("descriptor word {}", word - DESCRIPTOR_AT),
        _ => format!("place {} of the list", word - LIST_AT),
    }
}

/// The words of a node's size, seen by the map. They need be no node: what a count reaches ends
/// with the room there is, and a message is found only where its page is one. A node has neither.
#[derive(Clone, Copy)]
pub struct Words<'a>(pub &'a [u32]);

impl<'a> Words<'a> {
    pub fn running(&self) -> usize {
        self.0[RUNNING] as usize
    }

    pub fn timer(&self) -> u32 {
        self.0[TIMER]
    }

    pub fn sent_out(&self) -> u32 {
        self.0[SENT_OUT]
    }

    pub fn brought_in(&self) -> u32 {
        self.0[BROUGHT_IN]
    }

    /// The used places of the hardware queue.
    pub fn queue_count(&self) -> usize {
        QUEUE_PLACES.min(self.0[QUEUE_COUNT] as usize)
    }

    /// The used places of the free line.
    pub fn free_count(&self) -> usize {
        FRAMES.min(self.0[FREE_COUNT] as usize)
    }

    /// The used places of the swap line.
    pub fn swap_count(&self) -> usize {
        SWAP_PAGES.min(self.0[SWAP_COUNT] as usize)
    }

    /// The used places of the order of entry.
    pub fn entry_count(&self) -> usize {
        FRAMES.min(self.0[ENTRY_COUNT] as usize)
    }

    /// Where the hardware queue's messages begin, each with its group.
    pub fn queued(&self) -> impl Iterator<Item = usize> {
        (0..self.queue_count()).map(queued_at)
    }

    /// Where those of one group do.
    pub fn queued_of(&self, group: usize) -> impl Iterator<Item = usize> + 'a {
        let words = self.0;
        self.queued().filter(move |&at| words[at] == group as u32)
    }

    pub fn group(&self, group: usize) -> Record<'a> {
        Record(&self.0[group_at(group)..][..GROUP_WORDS])
    }

    /// A length and the eight words that follow it.
    pub fn kept(&self, at: usize) -> &'a [u32] {
        &self.0[at..][..PLACE_WORDS]
    }

    /// Where these places of a group's buffer begin: place p of the buffer is "place p mod 8 of the
    /// list's page number p / 8".
    pub fn places(&self, group: usize, places: Range<u64>) -> impl Iterator<Item = usize> + 'a {
        let list = self.group(group).list();
        let room = (list.len() * PAGE_PLACES) as u64;
        (places.start..places.end.min(room)).filter_map(move |at| {
            let (number, place) = part(at as usize, PAGE_PLACES);
            let page = list[number] as usize;
            (page < PAGES).then(|| place_at(page, place))
        })
    }

    /// Where the messages of a group's buffer are kept.
    pub fn buffered(&self, group: usize) -> impl Iterator<Item = usize> + 'a {
        let record = self.group(group);
        self.places(group, record.used_up()..record.end())
    }

    /// Where the messages of a group's line are kept.
    pub fn waiting_of(&self, group: usize) -> impl Iterator<Item = usize> + 'a {
        self.buffered(group)
            .chain(self.queued_of(group).map(|at| at + 1))
    }

    /// Where all waiting messages are kept.
    pub fn waiting(&self) -> impl Iterator<Item = usize> + 'a {
        let words = *self;
        (1..=GROUPS).flat_map(move |group| words.waiting_of(group))
    }

    /// Where the frame numbers of the free line stand.
    pub fn free_line(&self) -> Range<usize> {
        FREE_AT..FREE_AT + self.free_count()
    }

    /// Where the page numbers of the swap line do.
    pub fn swap_line(&self) -> Range<usize> {
        SWAP_AT..SWAP_AT + self.swap_count()
    }

    /// Where the frame numbers of the order of entry do.
    pub fn entry_order(&self) -> Range<usize> {
        ENTRY_AT..ENTRY_AT + self.entry_count()
    }

    /// Where the page numbers of the lists do.
    pub fn listed(&self) -> impl Iterator<Item = usize> + 'a {
        self.each_group(|at, record| at + LIST_AT..at + LIST_AT + record.list_count())
    }

    /// The unused places of the queue.
    pub fn queue_rest(&self) -> Range<usize> {
        queued_at(self.queue_count())..FREE_AT
    }

    /// The unused places of the free line.
    pub fn free_rest(&self) -> Range<usize> {
        self.free_line().end..GROUPS_AT
    }

    /// The unused places of the swap line.
    pub fn swap_rest(&self) -> Range<usize> {
        self.swap_line().end..ENTRY_AT
    }

    /// The unused places of the order of entry.
    pub fn entry_rest(&self) -> Range<usize> {
        self.entry_order().end..SIZE
    }

    /// The unused places of the lists.
    pub fn list_rest(&self) -> impl Iterator<Item = usize> + 'a {
        self.each_group(|at, record| at + LIST_AT + record.list_count()..at + GROUP_WORDS)
    }

    /// The unused descriptor words.
    pub fn descriptor_rest(&self) -> impl Iterator<Item = usize> + 'a {
        self.each_group(|at, record| at + DESCRIPTOR_AT + record.descriptor_count()..at + LIST_AT)
    }

    /// The waiting messages' words past their lengths.
    pub fn message_rest(&self) -> impl Iterator<Item = usize> + 'a {
        let words = *self;
        self.waiting().flat_map(move |at| {
            let length = MESSAGE_WORDS.min(words.0[at] as usize);
            at + 1 + length..at + PLACE_WORDS
        })
    }

    /// The words of the frames that no list has.
    pub fn free_frames(&self) -> impl Iterator<Item = usize> {
        self.unlisted(0..FRAMES)
    }

    /// The words of the swap pages that no list has.
    pub fn free_swap_pages(&self) -> impl Iterator<Item = usize> {
        self.unlisted(FRAMES..PAGES)
    }

    fn unlisted(&self, pages: Range<usize>) -> impl Iterator<Item = usize> {
        let mut listed = [false; PAGES];
        for at in self.listed() {
            if let Some(listed) = listed.get_mut(self.0[at] as usize) {
                *listed = true;
            }
        }
        let pages = pages.filter(move |&page| !listed[page]);
        pages.flat_map(|page| place_at(page, 0)..place_at(page + 1, 0))
    }

    /// The words of the buffers' used-up places.
    pub fn used_up_places(&self) -> impl Iterator<Item = usize> + 'a {
        self.place_words(|record| 0..record.used_up())
    }

    /// The words of the buffers' places behind the last message.
    pub fn unwritten_places(&self) -> impl Iterator<Item = usize> + 'a {
        self.place_words(|record| record.end()..u64::MAX)
    }

    /// The words of some places of each group's buffer.
    fn place_words(
        &self,
        places: fn(Record<'a>) -> Range<u64>,
    ) -> impl Iterator<Item = usize> + 'a {
        let words = *self;
        (1..=GROUPS)
            .flat_map(move |group| words.places(group, places(words.group(group))))
            .flat_map(|at| at..at + PLACE_WORDS)
    }

    /// A part of each group's record, which begins at the address that is handed on.
    fn each_group(
        &self,
        part: impl Fn(usize, Record<'a>) -> Range<usize> + 'a,
    ) -> impl Iterator<Item = usize> + 'a {
        let words = *self;
        (1..=GROUPS).flat_map(move |group| part(group_at(group), words.group(group)))
    }

    pub fn line_is_empty(&self, group: usize) -> bool {
        self.waiting_of(group).next().is_none()
    }

    pub fn pledge(&self, group: usize) -> u64 {
        let record = self.group(group);
        let queued = self.queued_of(group).count();
        pages_for(record.end() + queued as u64)
    }
}

/// A group's record in the memory.
#[derive(Clone, Copy)]
pub struct Record<'a>(pub &'a [u32]);

impl<'a> Record<'a> {
    pub fn atomic(&self) -> u32 {
        self.0[ATOMIC]
    }

    pub fn pending(&self) -> u32 {
        self.0[PENDING]
    }

    pub fn force(&self) -> u32 {
        self.0[FORCE]
    }

    pub fn revoked(&self) -> u32 {
        self.0[REVOKED]
    }

    pub fn used_up(&self) -> u64 {
        self.0[USED_UP].into()
    }

    pub fn messages(&self) -> u64 {
        self.0[MESSAGES].into()
    }

    /// The place of the buffer behind the last message: h + n.
    pub fn end(&self) -> u64 {
        self.used_up() + self.messages()
    }

    /// The used places of the list.
    pub fn list_count(&self) -> usize {
        PAGES.min(self.0[LIST_COUNT] as usize)
    }

    /// The used words of the descriptor.
    pub fn descriptor_count(&self) -> usize {
        DESCRIPTOR_WORDS.min(self.0[DESCRIPTOR_COUNT] as usize)
    }

    pub fn list(&self) -> &'a [u32] {
        &self.0[LIST_AT..][..self.list_count()]
    }

    pub fn descriptor(&self) -> &'a [u32] {
        &self.0[DESCRIPTOR_AT..][..self.descriptor_count()]
    }
}
