//! Why every message of a script was buffered, in one pass over its portions.

use std::io::{self, Write};

use crate::portions::{end, feed};
use crate::{calls, Node, SIZE, TELL, TELL_END, TELL_KEPT, TELL_OUT, TELL_STATE};

/// A script that is being read, from power-on, on memory of its own: for each accepted arrival a line of text
/// is written, in their order, as soon as its message has left the hardware queue.
///
/// ```
/// let mut told = Vec::new();
/// let mut reasons = fugu::Reasons::new();
/// reasons.feed(b"S,1\nA,1,7\nA,2,5\nD\nA,1", &mut told)?;
/// reasons.feed(b",8\n", &mut told)?;
/// reasons.finish(&mut told)?;
/// let expected = "\
/// line 2: reason 1 at line 4: never buffered, disposed of
/// line 3: reason 3 at line 4: its group wasn't running when it became head
/// line 5: reason 2 at line 5: still in the hardware queue
/// ";
/// assert_eq!(String::from_utf8_lossy(&told), expected);
/// # Ok::<(), std::io::Error>(())
/// ```
#[derive(Clone)]
pub struct Reasons {
    memory: Vec<u32>,
    state: [u64; TELL_STATE],
    kept: [u8; TELL_KEPT],
}

impl Default for Reasons {
    fn default() -> Self {
        let node = Node::power_on(vec![0; SIZE]).expect("the memory is long enough");
        Reasons {
            memory: node.into_memory(),
            state: [0; TELL_STATE],
            kept: [0; TELL_KEPT],
        }
    }
}

impl Reasons {
    /// Nothing of a script is read yet.
    pub fn new() -> Self {
        Self::default()
    }

    /// The next portion, of any size: a line that has begun at its end goes on in the next one.
    ///
    /// # Errors
    ///
    /// Where the output fails, and where no line numbers of 64 bits are left.
    pub fn feed(&mut self, portion: &[u8], out: &mut impl Write) -> io::Result<()> {
        let Reasons {
            memory,
            state,
            kept,
        } = self;
        feed(portion, &mut [0; TELL_OUT], out, |portion, text| {
            let mut part = [0; TELL];
            let told = calls::tell(memory, state, kept, portion, text, &mut part);
            debug_assert_eq!(told as usize, TELL);
            part
        })
    }

    /// The script's end: a line that has begun is its last, and of the messages that are still queued it is
    /// written that they are.
    ///
    /// # Errors
    ///
    /// Where the output fails, and where no line number is left for a line that has begun.
    pub fn finish(mut self, out: &mut impl Write) -> io::Result<()> {
        let Reasons {
            memory,
            state,
            kept,
        } = &mut self;
        end(&mut [0; TELL_OUT], out, |text| {
            let mut part = [0; TELL_END];
            let told = calls::tell_end(memory, state, kept, text, &mut part);
            debug_assert_eq!(told as usize, TELL_END);
            part
        })
    }
}

/// Why every message of a script was buffered, or where it went instead: a line of text for each accepted
/// arrival, in their order. The script is played from power-on, on memory of its own.
///
/// ```
/// assert_eq!(
///     fugu::why_all(b"S,1\nA,1,7\nO\n"),
///     b"line 2: reason 7 at line 3: the processor was taken\n"
/// );
/// ```
pub fn why_all(script: &[u8]) -> Vec<u8> {
    let mut told = Vec::new();
    let mut reasons = Reasons::new();
    reasons
        .feed(script, &mut told)
        .and_then(|()| reasons.finish(&mut told))
        .expect("a script in memory has fewer lines than there are numbers");
    told
}
