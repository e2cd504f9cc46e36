//! A node's memory as a file has it.

use crate::SIZE;

const WORD_BYTES: usize = 4;

/// The bytes of a node in a file.
pub const FILE_BYTES: usize = WORD_BYTES * SIZE;

/// The words that stand in the first bytes of a file of this length, each with its lowest byte first. A file
/// that ends within a word has none: what wrote it did not come to its end.
///
/// ```
/// assert_eq!(fugu::words_of_file(&[7, 1, 0, 0, 9, 0, 0, 0], 8), [263, 9]);
/// assert_eq!(fugu::words_of_file(&[7, 1, 0, 0], 5), []);
/// ```
pub fn words_of_file(bytes: &[u8], length: u64) -> Vec<u32> {
    if !length.is_multiple_of(WORD_BYTES as u64) {
        return Vec::new();
    }
    let words = bytes.chunks_exact(WORD_BYTES);
    words
        .map(|word| u32::from_le_bytes(word.try_into().expect("the bytes of a word")))
        .collect()
}
