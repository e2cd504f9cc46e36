//! What is read from files and streams, each to a bound.

use std::fs::File;
use std::io::{self, Read};
use std::path::Path;

use fugu::{words_of_file, FILE_BYTES};

use crate::text::grouped;

/// All of a stream, which has at most so many bytes.
pub fn whole(name: &str, stream: impl Read, most: u64) -> io::Result<Vec<u8>> {
    let mut bytes = Vec::new();
    stream.take(most + 1).read_to_end(&mut bytes)?;
    if bytes.len() as u64 > most {
        let told = format!("{name} has more than {} bytes", grouped(most));
        return Err(io::Error::other(told));
    }
    Ok(bytes)
}

/// A node's memory in a file, as the desk keeps it, as far as a node goes.
pub fn memory(path: &Path) -> io::Result<Vec<u32>> {
    let file = File::open(path)?;
    let known = file.metadata()?;
    let mut bytes = Vec::new();
    file.take(FILE_BYTES as u64).read_to_end(&mut bytes)?;
    let length = if known.is_file() {
        known.len()
    } else {
        bytes.len() as u64
    };
    Ok(words_of_file(&bytes, length))
}
