//! A script played as it comes, and its listing.

use std::io::{self, ErrorKind, Read, Write};

use cli::Failure;
use fugu::{header, Player};

use crate::signals;

/// The bytes that are read at a time.
const PORTION: usize = 64 * 1024;

/// Plays a script to its end and lists it. However that goes, the memory comes back as it is after the lines
/// whose listing was written, each of them whole.
///
/// What is listed is written before each read, since that may wait: who types a line sees its answer.
pub fn play(
    memory: Vec<u32>,
    mut input: impl Read,
    output: impl Write,
) -> (Vec<u32>, Result<(), Failure>) {
    let listed = Player::over(memory);
    let mut playing = Playing { listed, output };
    let played = playing.run(&mut input);
    (playing.listed.into_memory(), played)
}

struct Playing<O> {
    /// As far as the listing is written.
    listed: Player<Vec<u32>>,
    output: O,
}

/// How many bytes were written, and why no more.
type Cut = (usize, Failure);

impl<O: Write> Playing<O> {
    fn run(&mut self, input: &mut impl Read) -> Result<(), Failure> {
        self.write(&header()).map_err(|(_, failure)| failure)?;
        let mut portion = vec![0; PORTION];
        loop {
            match read(input, &mut portion)? {
                0 => return self.end(),
                count => self.feed(&portion[..count])?,
            }
        }
    }

    fn feed(&mut self, portion: &[u8]) -> Result<(), Failure> {
        let mut ahead = self.listed.clone();
        let mut listing = Vec::new();
        ahead.feed(portion, &mut listing)?;
        if let Err((written, failure)) = self.write(&listing) {
            let lines = ends(&listing[..written]).count();
            let used = ends(portion).take(lines).last().unwrap_or(0);
            self.listed.feed(&portion[..used], &mut io::sink())?;
            return Err(failure);
        }
        self.listed = ahead;
        Ok(())
    }

    /// The last line may lack its newline.
    fn end(&mut self) -> Result<(), Failure> {
        let mut listing = Vec::new();
        let memory = self.listed.clone().finish(&mut listing)?;
        self.write(&listing).map_err(|(_, failure)| failure)?;
        self.listed = Player::over(memory);
        go_on()
    }

    fn write(&mut self, bytes: &[u8]) -> Result<(), Cut> {
        let mut written = 0;
        while written < bytes.len() {
            go_on().map_err(|failure| (written, failure))?;
            match self.output.write(&bytes[written..]) {
                Ok(count) => written += count,
                Err(error) if error.kind() == ErrorKind::Interrupted => {}
                Err(error) => return Err((written, error.into())),
            }
        }
        Ok(())
    }
}

/// The positions behind the newlines.
fn ends(lines: &[u8]) -> impl Iterator<Item = usize> + '_ {
    let places = lines.iter().zip(1..);
    places.filter_map(|(&byte, behind)| (byte == b'\n').then_some(behind))
}

fn read(input: &mut impl Read, portion: &mut [u8]) -> Result<usize, Failure> {
    loop {
        go_on()?;
        let read = input.read(portion);
        // A hang-up is the end of what a terminal sends, too.
        go_on()?;
        match read {
            Err(error) if error.kind() == ErrorKind::Interrupted => {}
            read => return Ok(read?),
        }
    }
}

/// Unless a signal has asked for the end.
fn go_on() -> Result<(), Failure> {
    match signals::caught() {
        Some(number) => Err(Failure::Signal(number)),
        None => Ok(()),
    }
}
