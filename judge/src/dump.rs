//! A dump: the memory of a node in a file, its words each with the lowest byte first, and whatever stands
//! behind the node.

use std::fmt::{self, Display, Formatter};
use std::fs::File;
use std::io::{self, BufReader, Cursor, ErrorKind, Read};
use std::path::Path;

use crate::memory::{self, Fault, SIZE};
use crate::node::Node;

/// The bytes of a memory's word, the lowest first.
const WORD_BYTES: u64 = 4;
const NODE_BYTES: u64 = WORD_BYTES * SIZE as u64;
/// What is no regular file is read to its end, which may not come: so far.
const LONGEST_STREAM: u64 = 16 << 20;

/// Why a file holds no node.
#[derive(Debug)]
pub enum NoNode {
    /// It has so many bytes, the last of them no whole word: what wrote it did not come to its end.
    Ragged(u64),
    /// A stream that did not end in time.
    Endless,
    Fault(Fault),
}

impl Display for NoNode {
    fn fmt(&self, f: &mut Formatter) -> fmt::Result {
        match self {
            NoNode::Ragged(bytes) => write!(f, "the last word is cut short: {bytes} bytes"),
            NoNode::Endless => write!(f, "it does not end within {LONGEST_STREAM} bytes"),
            NoNode::Fault(fault) => fault.fmt(f),
        }
    }
}

/// A node, and what stands behind it in its file.
pub struct Dump {
    pub node: Node,
    pub words_behind: u64,
    behind: Box<dyn Read>,
}

impl Dump {
    /// The next of the words behind the node; none where they have ended.
    pub fn word_behind(&mut self) -> io::Result<Option<u32>> {
        let mut bytes = [0; WORD_BYTES as usize];
        match self.behind.read_exact(&mut bytes) {
            Ok(()) => Ok(Some(u32::from_le_bytes(bytes))),
            Err(error) if error.kind() == ErrorKind::UnexpectedEof => Ok(None),
            Err(error) => Err(error),
        }
    }
}

/// Reads a dump from a file. How long a regular one is is known without reading it.
pub fn open(path: &Path) -> io::Result<Result<Dump, NoNode>> {
    let file = File::open(path)?;
    let metadata = file.metadata()?;
    if metadata.is_file() {
        return taken_apart(BufReader::new(file), metadata.len());
    }
    read(file)
}

/// Reads a dump from a stream.
pub fn read(stream: impl Read) -> io::Result<Result<Dump, NoNode>> {
    let mut bytes = Vec::new();
    stream.take(LONGEST_STREAM + 1).read_to_end(&mut bytes)?;
    let length = bytes.len() as u64;
    if length > LONGEST_STREAM {
        return Ok(Err(NoNode::Endless));
    }
    taken_apart(Cursor::new(bytes), length)
}

fn taken_apart(mut file: impl Read + 'static, length: u64) -> io::Result<Result<Dump, NoNode>> {
    let mut bytes = Vec::new();
    file.by_ref().take(NODE_BYTES).read_to_end(&mut bytes)?;
    let words: Vec<u32> = bytes.chunks_exact(WORD_BYTES as usize).map(word).collect();
    Ok(match memory::read(&words) {
        Err(short @ Fault::TooShort(_)) => Err(NoNode::Fault(short)),
        _ if length % WORD_BYTES != 0 => Err(NoNode::Ragged(length)),
        Err(fault) => Err(NoNode::Fault(fault)),
        Ok(node) => Ok(Dump {
            node,
            words_behind: length.saturating_sub(NODE_BYTES) / WORD_BYTES,
            behind: Box::new(file),
        }),
    })
}

fn word(bytes: &[u8]) -> u32 {
    u32::from_le_bytes(bytes.try_into().expect("the bytes of a word"))
}
