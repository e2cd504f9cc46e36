//! A script played in portions: the listings of the vectors, whatever the portions and the output; memory that is
//! owned, lent or no node; the state in lent words; and what is too short.

use std::fs;
use std::path::PathBuf;

use fugu::{calls, header, Player, FEED_LINE, FEED_STATE, HEADER, SIZE};

use crate::support::{after, lines, listed, no_line_numbers_left, started, too_short, Lent};

fn all_listed() -> impl Iterator<Item = PathBuf> {
    let orders = (1..=7).map(|order| format!("vectors/order{order}"));
    let folders = ["examples".to_string(), "vectors/base".to_string()];
    folders
        .into_iter()
        .chain(orders)
        .flat_map(|folder| listed(&folder))
}

/// The memory after a script, line by line.
fn stepped(script: &[u8]) -> Vec<u32> {
    let mut node = started();
    for line in lines(script) {
        node.line(line);
    }
    node.into_memory()
}

#[test]
fn the_header() {
    assert_eq!(&header(), b"line,answer,value,trap,upcall,moved\n");
    for length in [0, 1, HEADER - 1] {
        let mut out = vec![9; length];
        assert_eq!(calls::header(&mut out), 0);
        assert_eq!(out, vec![9; length]);
    }
    let mut out = [9; HEADER + 2];
    assert_eq!(calls::header(&mut out) as usize, HEADER);
    assert_eq!(out[HEADER..], [9, 9]);
}

#[test]
fn every_listing_whatever_the_portions() {
    for path in all_listed() {
        let script = fs::read(&path).expect("a script");
        let expected = fs::read(path.with_extension("listing")).expect("its listing");
        for size in [1, 7, 65536] {
            let mut listing = header().to_vec();
            let mut player = Player::over(started().into_memory());
            for portion in script.chunks(size) {
                player.feed(portion, &mut listing).expect("memory");
                player.feed(b"", &mut listing).expect("memory");
            }
            let memory = player.finish(&mut listing).expect("memory");
            assert!(listing == expected, "{} by {size}", path.display());
            assert!(memory == stepped(&script), "{} by {size}", path.display());
        }
    }
}

#[test]
fn whatever_the_output() {
    for path in all_listed() {
        let script = fs::read(&path).expect("a script");
        let expected = fs::read(path.with_extension("listing")).expect("its listing");
        for room in [FEED_LINE, FEED_LINE + 1, 3 * FEED_LINE] {
            let mut lent = Lent::new(FEED_STATE);
            let mut listing = header().to_vec();
            let mut out = vec![0; room];
            let mut portion = &script[..];
            loop {
                let [stop, written, used] = lent.portion(calls::feed, portion, &mut out);
                listing.extend_from_slice(&out[..written]);
                portion = &portion[used..];
                if stop == 0 {
                    break;
                }
                assert!(stop == 1 && used > 0 && written + FEED_LINE > room);
            }
            assert!(portion.is_empty());
            let [stop, written] = lent.end(calls::feed_end, &mut out);
            assert_eq!(stop, 0);
            listing.extend_from_slice(&out[..written]);
            assert!(listing == expected, "{} into {room}", path.display());
        }
    }
}

#[test]
fn on_lent_memory() {
    let mut memory = after(&["S,1"]).into_memory();
    memory.resize(SIZE + 2, 9);
    let mut listing = Vec::new();
    let mut player = Player::over(&mut memory[..]);
    player.feed(b"A,1,7\nT,2", &mut listing).expect("memory");
    assert_eq!(player.memory()[..SIZE], *after(&["S,1", "A,1,7"]).memory());
    player.feed(b"56\nD", &mut listing).expect("memory");
    // A line that has begun is not played.
    player.into_memory();
    assert_eq!(listing, b"1,0,0,0,1,0\n2,0,0,3,0,1\n");
    assert_eq!(memory[..SIZE], *after(&["S,1", "A,1,7", "T,256"]).memory());
    assert_eq!(memory[SIZE..], [9, 9]);
}

#[test]
fn on_no_node_each_line_is_answered_1() {
    for length in [0, 1, SIZE - 1, SIZE] {
        let mut listing = Vec::new();
        let mut player = Player::over(vec![9; length]);
        player.feed(b"S,1\n?\nM", &mut listing).expect("memory");
        let memory = player.finish(&mut listing).expect("memory");
        assert_eq!(listing, b"1,1,0,0,0,0\n2,1,0,0,0,0\n3,1,0,0,0,0\n");
        assert_eq!(memory, vec![9; length]);
    }
}

#[test]
fn the_state_by_its_words() {
    let mut lent = Lent::new(FEED_STATE);
    let mut out = [9; 2 * FEED_LINE];
    let row = b"1,0,0,0,0,0\n";
    assert_eq!(
        lent.portion(calls::feed, b"S,1\nA,1", &mut out),
        [0, row.len(), 7]
    );
    assert_eq!(out[..row.len()], *row);
    assert_eq!(lent.state, [1, 3]);
    assert_eq!(lent.kept[..3], *b"A,1");
    assert_eq!(lent.portion(calls::feed, b",7\n", &mut out), [0, 12, 3]);
    assert_eq!(lent.state, [2, 0]);
    // Of a longer line one byte more than it may have.
    assert_eq!(
        lent.portion(calls::feed, &[b'A'; 300], &mut out),
        [0, 0, 300]
    );
    assert_eq!(lent.state, [2, 129]);
    let before = (lent.state.clone(), lent.kept.clone());
    assert_eq!(lent.end(calls::feed_end, &mut out), [0, 12]);
    assert_eq!(out[..12], *b"3,2,0,0,0,0\n");
    assert_eq!((lent.state, lent.kept), before);
}

#[test]
fn no_room_for_a_line_uses_none() {
    let mut lent = Lent::new(FEED_STATE);
    let before = lent.clone();
    for room in [0, 1, FEED_LINE - 1] {
        assert_eq!(
            lent.portion(calls::feed, b"S,1\n", &mut vec![0; room]),
            [1, 0, 0]
        );
        assert_eq!(lent, before);
        // Where no line has begun its end takes none.
        assert_eq!(lent.end(calls::feed_end, &mut vec![0; room])[1], 0);
    }
    // A line that has only begun takes none, until the script ends.
    assert_eq!(lent.portion(calls::feed, b"S,1", &mut []), [0, 0, 3]);
    let before = lent.clone();
    assert_eq!(lent.end(calls::feed_end, &mut [0; FEED_LINE - 1]), [1, 0]);
    assert_eq!(lent, before);
    assert_eq!(lent.end(calls::feed_end, &mut [0; FEED_LINE]), [0, 12]);
}

#[test]
fn no_line_numbers_left_use_none() {
    no_line_numbers_left(FEED_STATE, calls::feed, calls::feed_end, FEED_LINE);
}

#[test]
fn what_is_too_short_changes_nothing() {
    let memory = started().into_memory();
    too_short(&memory, FEED_STATE, calls::feed, calls::feed_end, FEED_LINE);
}
