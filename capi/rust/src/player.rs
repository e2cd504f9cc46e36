//! A script played in portions, and its listing.

use std::io::{self, Write};

use crate::portions::{end, feed};
use crate::{calls, FEED, FEED_END, FEED_KEPT, FEED_LINE, FEED_STATE, HEADER};

/// How many lines are listed at a time, at least.
const LINES: usize = 64;

/// The listing's first line, with its newline.
pub fn header() -> [u8; HEADER] {
    let mut text = [0; HEADER];
    let written = calls::header(&mut text);
    debug_assert_eq!(written as usize, HEADER);
    text
}

/// A script that is being played on memory, owned or lent as a [`Node`](crate::Node)'s: each whole line is
/// stepped and listed. On memory that is no node each line is answered 1.
///
/// ```
/// use fugu::{header, Node, Player, SIZE};
///
/// let node = Node::power_on(vec![0; SIZE]).expect("the memory is long enough");
/// let mut listing = header().to_vec();
/// let mut player = Player::over(node.into_memory());
/// player.feed(b"S,1\nA,1,7\nE", &mut listing)?;
/// player.feed(b",0\nD", &mut listing)?;
/// let memory = player.finish(&mut listing)?;
/// let expected = "\
/// line,answer,value,trap,upcall,moved
/// 1,0,0,0,0,0
/// 2,0,0,0,1,0
/// 3,0,7,0,0,0
/// 4,0,0,0,0,0
/// ";
/// assert_eq!(String::from_utf8_lossy(&listing), expected);
/// assert!(Node::over(memory).test());
/// # Ok::<(), std::io::Error>(())
/// ```
#[derive(Clone, Debug)]
pub struct Player<M> {
    memory: M,
    state: [u64; FEED_STATE],
    kept: [u8; FEED_KEPT],
}

impl<M: AsRef<[u32]> + AsMut<[u32]>> Player<M> {
    /// Memory as it is; nothing of a script is read yet.
    pub fn over(memory: M) -> Player<M> {
        Player {
            memory,
            state: [0; FEED_STATE],
            kept: [0; FEED_KEPT],
        }
    }

    /// The next portion, of any size: a line that has begun at its end goes on in the next one.
    ///
    /// # Errors
    ///
    /// Where the output fails, and where no line numbers of 64 bits are left.
    pub fn feed(&mut self, portion: &[u8], out: &mut impl Write) -> io::Result<()> {
        let Player {
            memory,
            state,
            kept,
        } = self;
        let memory = memory.as_mut();
        feed(
            portion,
            &mut [0; LINES * FEED_LINE],
            out,
            |portion, text| {
                let mut part = [0; FEED];
                let told = calls::feed(memory, state, kept, portion, text, &mut part);
                debug_assert_eq!(told as usize, FEED);
                part
            },
        )
    }

    /// The script's end: a line that has begun is its last. The memory back.
    ///
    /// # Errors
    ///
    /// Where the output fails, and where no line number is left for a line that has begun.
    pub fn finish(mut self, out: &mut impl Write) -> io::Result<M> {
        let Player {
            memory,
            state,
            kept,
        } = &mut self;
        end(&mut [0; FEED_LINE], out, |text| {
            let mut part = [0; FEED_END];
            let told = calls::feed_end(memory.as_mut(), state, kept, text, &mut part);
            debug_assert_eq!(told as usize, FEED_END);
            part
        })?;
        Ok(self.memory)
    }

    /// The memory after the whole lines so far.
    pub fn memory(&self) -> &[u32] {
        self.memory.as_ref()
    }

    /// The memory back, without a line that has begun.
    pub fn into_memory(self) -> M {
        self.memory
    }
}
