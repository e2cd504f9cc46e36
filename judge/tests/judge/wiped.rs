//! Order 3, sentence by sentence: what is left 0, and that an exchange leaves nothing.

use judge::node::{Node, Page, Place};

use crate::support::{after, pages, random_runs, step, S0};

const WIPED: Page = [Place {
    length: 0,
    words: [0; 8],
}; 8];

/// The words of a page's places, each cut to its length.
fn messages(page: &Page) -> Vec<&[u32]> {
    let waiting = page.iter().filter(|place| place.length > 0);
    waiting
        .map(|place| &place.words[..place.length as usize])
        .collect()
}

#[test]
fn disposing_of_a_message_leaves_its_place_0() {
    let node = step(&after("A,1,7,8 A,1,9 S,1"), "D");
    assert_eq!(node.pages[0][0], Place::default());
    assert_eq!(messages(&node.pages[0]), [[9]]);
    let node = after("3*A,1,7,8 S,1 2*D");
    assert_eq!(node.pages[0][..2], WIPED[..2]);
    assert_eq!(messages(&node.pages[0]), [[7, 8]]);
}

#[test]
fn a_page_used_up_leaves_its_frame_0() {
    let node = after("9*A,1,7,8 S,1 7*D");
    assert_eq!(messages(&node.pages[0]), [[7, 8]]);
    let node = step(&node, "D");
    assert_eq!((node.pages[0], node.free.back()), (WIPED, Some(&0)));
    assert_eq!(messages(&node.pages[1]), [[7, 8]]);
}

#[test]
fn an_emptied_buffer_leaves_its_last_frame_0() {
    for lines in ["A,1,7,8 S,1", "3*A,1,7,8 S,1 2*D", "9*A,1,7,8 S,1 8*D"] {
        let node = after(lines);
        let last = pages(&node, 1)[0];
        let node = step(&node, "D");
        assert_eq!((node.pages[last], node.free.back()), (WIPED, Some(&last)));
    }
}

/// The message that a frame was needed for is all that stands in it then.
#[test]
fn a_page_sent_out_leaves_its_frame_0() {
    let node = after("8*A,3,5,6 248*A,1,7");
    let out = node.pages[0];
    let node = step(&node, "A,1,8");
    assert_eq!(node.pages[S0], out);
    assert_eq!(messages(&node.pages[0]), [[8]]);
    assert_eq!(node.pages[0][1..], WIPED[1..]);
}

#[test]
fn a_page_brought_in_to_be_written_leaves_its_swap_page_0() {
    // Group 3 uses up its only page, the last to have entered: frame 0.
    let node = after("A,1,7 248*A,2,7 A,3,7 S,3 D S,0");
    assert_eq!(messages(&node.pages[S0]), [[7]]);
    let node = step(&node, "A,1,8");
    assert_eq!(messages(&node.pages[0]), [[7], [8]]);
    assert_eq!((node.pages[S0], node.swap_free.back()), (WIPED, Some(&S0)));
}

#[test]
fn a_first_page_brought_in_leaves_its_swap_page_0() {
    let node = after("8*A,1,6 8*A,1,7 241*A,1,8 S,1 7*D");
    let out = node.pages[S0];
    assert_eq!(messages(&out), [[7]; 8]);
    let node = step(&node, "D");
    assert_eq!(node.pages[pages(&node, 1)[0]], out);
    assert_eq!((node.pages[S0], node.swap_free.back()), (WIPED, Some(&S0)));
}

/// The two trade places, and each is there whole.
#[test]
fn an_exchange_wipes_nothing() {
    let node = after("3*A,1,7 249*A,2,8");
    let (out, frame) = (node.pages[S0], node.pages[1]);
    assert_eq!((messages(&out).len(), messages(&frame).len()), (3, 8));
    let first = step(&node, "S,1");
    assert_eq!((first.pages[1], first.pages[S0]), (out, frame));
    let written = step(&node, "A,1,9");
    assert_eq!(messages(&written.pages[1]), [[7], [7], [7], [9]]);
    assert_eq!(written.pages[S0], frame);
}

/// A written message's words past its length are 0 also where a longer one stood.
#[test]
fn a_frame_taken_again_holds_new_words_alone() {
    let node = after("A,1,7,8,9 S,1 D N S,0 249*A,2,1");
    assert_eq!(pages(&node, 2)[31], 0);
    assert_eq!(messages(&node.pages[0]), [[1]]);
    assert_eq!(node.pages[0][0].words, [1, 0, 0, 0, 0, 0, 0, 0]);
}

/// The places of all pages that hold a waiting message.
fn waiting(node: &Node) -> [[bool; 8]; 96] {
    let mut waiting = [[false; 8]; 96];
    for buffer in node.groups.iter().map(|group| &group.buffer) {
        for place in buffer.used_up..buffer.used_up + buffer.messages {
            waiting[buffer.pages[place / 8]][place % 8] = true;
        }
    }
    waiting
}

#[test]
fn where_no_message_waits_all_is_0() {
    for run in random_runs(2, 1500) {
        let mut node = Node::power_on();
        for operation in run {
            node.step(&operation);
            let places = node.pages.iter().flatten();
            let waiting = waiting(&node);
            for (place, waits) in places.zip(waiting.iter().flatten()) {
                assert!(*waits == (*place != Place::default()), "{operation:?}");
            }
        }
    }
}
