//! Calls that are wrong in one word: each is found, and told by the word.

use std::ops::Range;

use fugu::{HEAD, PAGING, REPORT, SIZE};
use judge::node::Operation;
use trials::asked::Asked;
use trials::calls::{Calls, Proved};
use trials::comparison::compare;
use trials::memories::Memories;
use trials::table::table_of;

/// Another verdict, of the memory and the right one.
type Verdict = Box<dyn Fn(&[u32], u32) -> u32>;
/// Another count of words written, of the part after the call and the right one.
type Part = Box<dyn Fn(&mut [u32], u32) -> u32>;
/// Another memory, of what is asked, the memory before it and the memory after it.
type Memory = Box<dyn Fn(&Asked, &[u32], &mut [u32])>;
/// Another E, of its index, where the head message stands, and the memory and the report after it.
type Read = Box<dyn Fn(usize, Range<usize>, &mut [u32], &mut [u32])>;
/// Another value of an accepted C, of the memory and the right one.
type Turn = Box<dyn Fn(&[u32], u32) -> u32>;

/// The proved calls, and what is done behind their back.
struct Wrong {
    verdict: Verdict,
    head: Part,
    paging: Part,
    report: Part,
    memory: Memory,
    read: Read,
    turn: Turn,
}

fn right() -> Wrong {
    Wrong {
        verdict: Box::new(|_, verdict| verdict),
        head: Box::new(|_, written| written),
        paging: Box::new(|_, written| written),
        report: Box::new(|_, written| written),
        memory: Box::new(|_, _, _| ()),
        read: Box::new(|_, _, _, _| ()),
        turn: Box::new(|_, value| value),
    }
}

/// Where the head message stands.
fn head_part(memory: &[u32]) -> Range<usize> {
    let mut head = [0; HEAD];
    Proved.head(memory, &mut head);
    let [start, length] = head.map(|word| word as usize);
    start..start + length
}

impl Calls for Wrong {
    fn test(&self, memory: &[u32]) -> u32 {
        (self.verdict)(memory, Proved.test(memory))
    }

    fn head(&self, memory: &[u32], part: &mut [u32]) -> u32 {
        let written = Proved.head(memory, part);
        (self.head)(part, written)
    }

    fn paging(&self, memory: &[u32], part: &mut [u32]) -> u32 {
        let written = Proved.paging(memory, part);
        (self.paging)(part, written)
    }

    /// E by its letter is wrong by `read` alone: it is asked for the words of every head message first,
    /// and any other difference would be told there.
    fn ask(&self, asked: &Asked, memory: &mut [u32], part: &mut [u32]) -> u32 {
        if let Asked::Step(b'E', numbers) = asked {
            let written = Proved.ask(asked, memory, part);
            let head = head_part(memory);
            if numbers.len() == 1 && !head.is_empty() && part.len() >= REPORT {
                (self.read)(numbers[0] as usize, head, memory, part);
            }
            return written;
        }
        let before = memory.to_vec();
        let written = Proved.ask(asked, memory, part);
        (self.memory)(asked, &before, memory);
        if asked.operation() == Some(Operation::Turn) && written > 0 && part[0] == 0 {
            part[1] = (self.turn)(&before, part[1]);
        }
        (self.report)(part, written)
    }
}

/// Among so many memories even what is rare is met: a count that is at its largest number as a page
/// goes out.
const MEMORIES: usize = 100_000;

/// The first difference within so many memories of seed 1, as it is told.
fn first_difference(calls: &impl Calls, memories: usize) -> Option<String> {
    Memories::new(1)
        .take(memories)
        .find_map(|trial| compare(calls, &trial).err())
        .map(|difference| difference.to_string())
}

/// A difference is found within so many memories, and told in these words.
fn found(calls: Wrong, told: &str) {
    found_with(calls, told, "");
}

/// A difference is found, and told in words that begin so and have these among them.
fn found_with(calls: Wrong, start: &str, told: &str) {
    let difference = first_difference(&calls, MEMORIES).expect("a difference");
    assert!(difference.starts_with(start), "{difference}, not {start}");
    assert!(difference.contains(told), "{difference}, not {told}");
}

fn memory(change: impl Fn(&Asked, &[u32], &mut [u32]) + 'static) -> Wrong {
    Wrong {
        memory: Box::new(change),
        ..right()
    }
}

/// A part that has room gets another word at an index.
fn changed(at: usize, room: usize) -> Part {
    Box::new(move |part, written| {
        if part.len() >= room {
            part[at] ^= 1;
        }
        written
    })
}

#[test]
fn the_proved_calls_agree() {
    assert_eq!(first_difference(&Proved, 5_000), None);
    assert_eq!(first_difference(&right(), 5_000), None);
}

#[test]
fn a_difference_is_told_with_its_seed_and_number() {
    let wrong = memory(|asked, _, after| {
        if let (Asked::Step(b'T', _), Some(word)) = (asked, after.get_mut(2000)) {
            *word ^= 1;
        }
    });
    let first = Memories::new(7)
        .position(|trial| matches!(trial.asked, Asked::Step(b'T', _)) && trial.memory.len() > 2000)
        .expect("such a memory");
    let told = table_of(&wrong, 1000, 7, |_, _| ())
        .err()
        .expect("a difference");
    let start = format!("seed 7, memory {}, step 'T' [", first + 1);
    assert!(told.starts_with(&start), "{told}");
    assert!(
        told.contains("]: the memory after it differs\n  word 2000, word "),
        "{told}"
    );
}

#[test]
fn each_word_of_the_memory() {
    for at in 0..SIZE {
        let wrong = memory(move |_, _, after| {
            if let Some(word) = after.get_mut(at) {
                *word ^= 1 << (at % 32);
            }
        });
        found(
            wrong,
            &format!("the memory after it differs\n  word {at}, "),
        );
    }
}

#[test]
fn a_word_past_the_node() {
    let wrong = memory(|_, before, after| {
        if before.len() > SIZE {
            after[before.len() - 1] ^= 1;
        }
    });
    found(wrong, "the memory after it differs\n  word 81");
}

#[test]
fn a_refused_memory_that_is_changed() {
    let wrong = memory(|asked, before, after| {
        if *asked != Asked::PowerOn && before.len() == SIZE && Proved.test(before) == 0 {
            after[1] = !after[1];
        }
    });
    found(wrong, "the memory after it differs\n  word 1, the timer");
}

#[test]
fn a_step_that_is_lost() {
    let wrong = memory(|asked, before, after| {
        if matches!(asked, Asked::Step(b'D', _)) {
            after.copy_from_slice(before);
        }
    });
    found(wrong, "the memory after it differs\n  word ");
}

#[test]
fn each_word_of_the_report() {
    let names = "answer, value, trap, upcall, moved, node sent to, group sent for, count of words \
                 sent, word 0 sent, word 1 sent, word 2 sent, word 3 sent, word 4 sent, word 5 \
                 sent, word 6 sent, word 7 sent";
    for (at, name) in names.split(", ").enumerate() {
        let wrong = Wrong {
            report: changed(at, REPORT),
            ..right()
        };
        found(wrong, &format!("the report differs\n  {name}: judge "));
    }
}

#[test]
fn a_word_behind_the_report() {
    let wrong = Wrong {
        report: changed(REPORT, REPORT + 1),
        ..right()
    };
    found(wrong, "the report differs\n  word 16 of the part, behind");
}

#[test]
fn a_part_that_is_too_short_but_written() {
    let wrong = Wrong {
        report: Box::new(|part, written| {
            if written == 0 && !part.is_empty() {
                part[0] = 0;
            }
            written
        }),
        ..right()
    };
    found(
        wrong,
        "the report differs\n  answer: judge 3735928559, library 0",
    );
}

#[test]
fn a_wrong_count_of_words_written() {
    let written = "differs\n  count of words written: judge ";
    let report = Wrong {
        report: Box::new(|_, written| written + 1),
        ..right()
    };
    found(report, &format!("the report {written}"));
    let head = Wrong {
        head: Box::new(|_, _| 0),
        ..right()
    };
    found(head, &format!("fugu_head {written}"));
    let paging = Wrong {
        paging: Box::new(|_, _| 2),
        ..right()
    };
    found(paging, &format!("fugu_paging {written}"));
}

#[test]
fn each_word_of_the_head() {
    for (at, name) in ["index of the first word", "count of words"]
        .iter()
        .enumerate()
    {
        let wrong = Wrong {
            head: changed(at, HEAD),
            ..right()
        };
        found(wrong, &format!("fugu_head differs\n  {name}: judge "));
    }
}

/// An E that is wrong is found where the words of a head message are asked for.
fn a_read_with(told: &str, change: impl Fn(usize, Range<usize>, &mut [u32], &mut [u32]) + 'static) {
    let wrong = Wrong {
        read: Box::new(change),
        ..right()
    };
    found_with(wrong, "asked before, step 'E' [", told);
}

/// An accepted E whose value is the word at another address, of its index and of where the head
/// message stands.
fn a_read_of(another: impl Fn(usize, Range<usize>) -> usize + 'static) {
    let told = "]: the report differs\n  value: judge ";
    a_read_with(told, move |index, head, memory, report| {
        if index < head.len() {
            report[1] = memory[another(index, head)];
        }
    });
}

#[test]
fn each_index_of_a_read() {
    for at in 0..8 {
        let told = format!("[{at}]: the report differs\n  value: judge ");
        a_read_with(&told, move |index, head, _, report| {
            if index == at && index < head.len() {
                report[1] ^= 1;
            }
        });
    }
}

/// The hardware queue's first place, where the message stands in a frame.
#[test]
fn a_read_in_the_queue_for_a_buffered_group() {
    a_read_of(|index, head| match head.start {
        ..1092 => head.start + index,
        _ => 6 + index,
    });
}

/// Its page's first place, where the message stands in a later one.
#[test]
fn a_read_that_forgets_used_up_places() {
    a_read_of(|index, head| match head.start.checked_sub(1092) {
        None => head.start + index,
        Some(word) => places(word as u32 / 72, 0..1).start + 1 + index,
    });
}

#[test]
fn a_read_of_the_next_word() {
    a_read_of(|index, head| head.start + index + 1);
}

#[test]
fn a_read_past_the_message() {
    for length in 1..=8 {
        let told = format!("[{length}]: the report differs\n  answer: judge 9, library 0");
        a_read_with(&told, move |index, head, memory, report| {
            if index == length && head.len() == length {
                report[0] = 0;
                report[1] = memory[head.end];
            }
        });
    }
}

/// Accepted, it takes its word away; refused, it sets the timer back.
#[test]
fn a_read_that_changes_the_memory() {
    let changed = "]: the memory after it differs\n  word ";
    a_read_with(changed, |index, head, memory, _| {
        if let Some(at) = head.clone().nth(index) {
            memory[at] = 0;
        }
    });
    let timer = format!("{changed}1, the timer: judge ");
    a_read_with(&timer, |index, head, memory, _| {
        if index == head.len() {
            memory[1] = 0;
        }
    });
}

#[test]
fn each_count_of_pages() {
    for (at, name) in ["pages sent out", "pages brought in"].iter().enumerate() {
        let wrong = Wrong {
            paging: changed(at, PAGING),
            ..right()
        };
        found(wrong, &format!("fugu_paging differs\n  {name}: judge "));
    }
}

/// Whether a step changed the order of entry without a change in how many frames are in use: a page
/// went out for another.
fn sent_out(asked: &Asked, before: &[u32], after: &[u32]) -> bool {
    *asked != Asked::PowerOn
        && before.len() >= SIZE
        && before[8005] == after[8005]
        && before[8072..SIZE] != after[8072..SIZE]
}

/// The words of some places of a page.
fn places(page: u32, places: Range<u32>) -> Range<usize> {
    let at = |place| (1092 + 72 * page + 9 * place) as usize;
    at(places.start)..at(places.end)
}

/// A step after which words stand again that stood there before is found.
fn words_that_stay(stay: impl Fn(&Asked, &[u32], &[u32]) -> Option<Range<usize>> + 'static) {
    let wrong = memory(move |asked, before, after| {
        if let Some(words) = stay(asked, before, after) {
            after[words.clone()].copy_from_slice(&before[words]);
        }
    });
    found(wrong, "the memory after it differs\n  word ");
}

/// Its place, of which the length or a word is enough.
#[test]
fn a_message_disposed_of_that_stays() {
    for part in [0..1, 1..2, 0..9] {
        words_that_stay(move |asked, before, _| {
            let first = head_part(before).start;
            let place = first.checked_sub(1).filter(|at| *at >= 1092)?;
            let disposed = asked.operation() == Some(Operation::Dispose);
            disposed.then_some(place + part.start..place + part.end)
        });
    }
}

/// In its frame, the last that was entered, behind the message that it was taken for.
#[test]
fn a_page_sent_out_that_stays() {
    words_that_stay(|asked, before, after| {
        let none_in = sent_out(asked, before, after) && before[8007] == after[8007];
        none_in.then(|| places(after[SIZE - 1], 1..8))
    });
}

/// In its swap page, the last of the swap line.
#[test]
fn a_page_brought_in_that_stays() {
    words_that_stay(|asked, before, after| {
        let is_step = *asked != Asked::PowerOn && Proved.test(before) == 1;
        let brought_in = is_step && before[8004] < after[8004];
        brought_in.then(|| places(after[8007 + after[8004] as usize], 0..8))
    });
}

#[test]
fn a_count_that_begins_anew_behind_its_largest_number() {
    let wrong = memory(|asked, before, after| {
        if sent_out(asked, before, after) && before[8006] == u32::MAX {
            after[8006] = 0;
        }
    });
    found(
        wrong,
        "the memory after it differs\n  word 8006, pages sent out: judge 4294967295, library 0",
    );
}

#[test]
fn a_frame_that_does_not_enter_last() {
    let wrong = memory(|asked, before, after| {
        if sent_out(asked, before, after) {
            after[8072..SIZE].copy_from_slice(&before[8072..SIZE]);
        }
    });
    found(
        wrong,
        "the memory after it differs\n  word 8072, place 0 of",
    );
}

#[test]
fn a_test_that_passes_all_but_the_short() {
    let wrong = Wrong {
        verdict: Box::new(|memory, _| u32::from(memory.len() >= SIZE)),
        ..right()
    };
    found(wrong, "fugu_test differs\n  verdict: judge 0, library 1");
}

#[test]
fn a_test_that_refuses_a_node() {
    let wrong = Wrong {
        verdict: Box::new(|memory, verdict| verdict & u32::from(memory.len() == SIZE)),
        ..right()
    };
    found(wrong, "fugu_test differs\n  verdict: judge 1, library 0");
}

/// A test that forgets what is mended before it, and asks all else.
fn a_test_without(mend: impl Fn(&mut [u32]) + 'static) {
    let wrong = Wrong {
        verdict: Box::new(move |memory, verdict| {
            let mut mended = memory.to_vec();
            if mended.len() >= SIZE {
                mend(&mut mended);
            }
            verdict | Proved.test(&mended)
        }),
        ..right()
    };
    found(wrong, "fugu_test differs\n  verdict: judge 0, library 1");
}

/// A flag of a group's record: its address.
fn flag_at(group: usize, flag: usize) -> usize {
    196 + 112 * (group - 1) + flag
}

const ATOMIC: usize = 0;
const FORCE: usize = 2;
const REVOKED: usize = 3;

#[test]
fn a_test_that_forgets_the_idle_timer() {
    a_test_without(|memory| {
        if memory[2] == 0 {
            memory[1] = 0;
        }
    });
}

#[test]
fn a_test_that_forgets_that_force_or_revoked_asks_for_atomic() {
    for flag in [FORCE, REVOKED] {
        a_test_without(move |memory| {
            for group in 1..=8 {
                let stands = memory[flag_at(group, flag)] == 1;
                if stands && memory[flag_at(group, ATOMIC)] == 0 {
                    memory[flag_at(group, flag)] = 0;
                }
            }
        });
    }
}

#[test]
fn a_test_that_takes_a_revoked_group_for_direct() {
    a_test_without(|memory| {
        if memory[2] > 0 && (1..=8).contains(&memory[0]) {
            memory[flag_at(memory[0] as usize, REVOKED)] = 0;
        }
    });
}

/// The pages of a line, which stands behind its count.
fn line(memory: &[u32], count: usize, at: usize, most: u32) -> Vec<u32> {
    let pages = &memory[at..][..memory[count].min(most) as usize];
    pages.iter().copied().filter(|page| *page < 96).collect()
}

#[test]
fn a_test_that_does_not_look_at_free_frames_or_free_swap_pages() {
    for (count, at, most) in [(3, 164, 32), (8004, 8008, 64)] {
        a_test_without(move |memory| {
            for page in line(memory, count, at, most) {
                memory[places(page, 0..8)].fill(0);
            }
        });
    }
}

#[test]
fn a_test_that_does_not_look_at_used_up_places() {
    a_test_without(|memory| {
        for record in (1..=8).map(|group| flag_at(group, 0)) {
            let used_up = memory[record + 4].min(8);
            if let Some(&first) = line(memory, record + 6, record + 16, 96).first() {
                memory[places(first, 0..used_up)].fill(0);
            }
        }
    });
}

#[test]
fn a_test_that_does_not_look_behind_the_last_message() {
    a_test_without(|memory| {
        for record in (1..=8).map(|group| flag_at(group, 0)) {
            let end = memory[record + 4].wrapping_add(memory[record + 5]) % 8;
            let list = line(memory, record + 6, record + 16, 96);
            if let Some(&last) = list.last().filter(|_| end > 0) {
                memory[places(last, end..8)].fill(0);
            }
        }
    });
}

/// A step of this letter that is wrong in a word is found, and told by what stands there.
fn a_step_with(letter: u8, told: &str, change: impl Fn(usize, &[u32], &mut [u32]) + 'static) {
    let wrong = memory(move |asked, before, after| {
        let is_one = matches!(asked, Asked::Step(other, _) if *other == letter);
        if is_one && Proved.test(before) == 1 && before[0] > 0 {
            change(before[0] as usize, before, after);
        }
    });
    found_with(wrong, "the memory after it differs\n  word ", told);
}

#[test]
fn a_timeout_that_does_not_revoke() {
    a_step_with(b'T', ", revoked of group ", |runner, before, after| {
        after[flag_at(runner, REVOKED)] = before[flag_at(runner, REVOKED)];
    });
}

#[test]
fn an_end_that_leaves_force_or_revoked() {
    for (flag, told) in [
        (FORCE, ", force of group "),
        (REVOKED, ", revoked of group "),
    ] {
        a_step_with(b'N', told, move |runner, before, after| {
            after[flag_at(runner, flag)] = before[flag_at(runner, flag)];
        });
    }
}

#[test]
fn force_lost_with_the_processor() {
    a_step_with(b'S', ", force of group ", |runner, before, after| {
        if after[0] != before[0] {
            after[flag_at(runner, FORCE)] = 0;
        }
    });
}

#[test]
fn a_processor_that_is_not_taken() {
    let told = "0, the running group: judge 0, library ";
    a_step_with(b'O', told, |runner, _, after| after[0] = runner as u32);
}

/// By O, and by S to another.
#[test]
fn a_queue_that_stays_where_the_processor_is_taken() {
    let told = "2, messages in the hardware queue: judge 0, library ";
    for letter in *b"OS" {
        a_step_with(letter, told, |_, before, after| {
            if after[0] != before[0] {
                after[2] = before[2];
            }
        });
    }
}

#[test]
fn a_processor_given_where_a_group_runs() {
    let wrong = Wrong {
        report: Box::new(|part, written| {
            if written > 0 && part[0] == 16 {
                part[0] = 0;
            }
            written
        }),
        ..right()
    };
    found(wrong, "the report differs\n  answer: judge 16, library 0");
}

#[test]
fn a_forced_timer_that_settling_sets_back() {
    a_step_with(b'M', ", the timer: judge ", |_, _, after| {
        if after[2] == 0 {
            after[1] = 0;
        }
    });
}

#[test]
fn a_turn_that_sets_the_timer_back() {
    a_step_with(b'C', ", the timer: judge ", |_, _, after| after[1] = 0);
}

/// A C whose value is another is found, of the memory and of the right value.
fn a_turn_to(another: impl Fn(&[u32], u32) -> u32 + 'static) {
    let wrong = Wrong {
        turn: Box::new(another),
        ..right()
    };
    found(wrong, "the report differs\n  value: judge ");
}

#[test]
fn a_turn_to_the_running_one_first() {
    a_turn_to(|memory, value| match head_part(memory).is_empty() {
        true => value,
        false => memory[0],
    });
}

#[test]
fn a_turn_that_leaves_the_running_one_out() {
    a_turn_to(|memory, value| match value == memory[0] {
        true => 0,
        false => value,
    });
}

#[test]
fn a_turn_that_does_not_go_round() {
    a_turn_to(|memory, value| match value < memory[0] {
        true => 0,
        false => value,
    });
}

#[test]
fn a_turn_that_starts_at_2_with_nobody_running() {
    a_turn_to(|memory, value| match (memory[0], value) {
        (0, 1) => 2,
        _ => value,
    });
}

/// Where the group has its mail in the hardware queue alone, and where its first page is in swap.
#[test]
fn a_turn_that_does_not_look_everywhere() {
    a_turn_to(|memory, value| match buffer(memory, value).first() {
        None => 0,
        Some(_) => value,
    });
    a_turn_to(|memory, value| match buffer(memory, value).first() {
        Some(32..) => 0,
        _ => value,
    });
}

/// The pages of a group's buffer; none for nobody.
fn buffer(memory: &[u32], group: u32) -> Vec<u32> {
    match group {
        0 => Vec::new(),
        _ => {
            let record = flag_at(group as usize, 0);
            line(memory, record + 6, record + 16, 96)
        }
    }
}

/// Revoked counts as buffered, and is no mail.
#[test]
fn a_turn_to_a_revoked_group() {
    a_turn_to(|memory, value| {
        let mut revoked = (1..=8).filter(|&group| memory[flag_at(group, REVOKED)] == 1);
        match (value, revoked.next()) {
            (0, Some(group)) => group as u32,
            _ => value,
        }
    });
}
