//! A script's portions, by calls that write text and tell how far they came.

use std::io::{self, Write};

/// Why a call stopped, by its number: nothing is left of the portion, or the text has no room for more.
const ALL_USED: u64 = 0;
const NO_ROOM: u64 = 1;

/// A portion by as many calls as it takes. Each tells why it stopped, how many bytes of the text it wrote
/// and how many of the portion it used.
pub fn feed(
    mut portion: &[u8],
    text: &mut [u8],
    out: &mut impl Write,
    mut call: impl FnMut(&[u8], &mut [u8]) -> [u64; 3],
) -> io::Result<()> {
    loop {
        let [stop, written, used] = call(portion, text);
        out.write_all(&text[..written as usize])?;
        match stop {
            ALL_USED => return Ok(()),
            // The text has room for a line of the script at least, so that some of the portion is used.
            NO_ROOM => portion = &portion[used as usize..],
            _ => return Err(no_numbers()),
        }
    }
}

/// The script's end by one call, which the text has room for.
pub fn end(
    text: &mut [u8],
    out: &mut impl Write,
    call: impl FnOnce(&mut [u8]) -> [u64; 2],
) -> io::Result<()> {
    let [stop, written] = call(text);
    if stop != ALL_USED {
        return Err(no_numbers());
    }
    out.write_all(&text[..written as usize])
}

fn no_numbers() -> io::Error {
    io::Error::other("no line numbers are left")
}
