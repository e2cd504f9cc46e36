//! A script on its way to the judge and to a program, in portions of random sizes.
//!
//! The judge's portions wait in a line without bound: if it could be full, a program that keeps its
//! listing back would wait for more script, the judge for the listing, and the script for the
//! judge. The line stays short all the same, since a program whose listing is not taken from it
//! stops reading.

use std::io::{self, BufRead, ErrorKind, Read, Write};
use std::process::ChildStdin;
use std::sync::mpsc::{self, Receiver, Sender};

use crate::random::Random;

/// A portion has at most 2 to this power bytes: 128 KiB.
const LARGEST: u64 = 17;

/// The end that a script is written to, and the end that the judge reads it from.
pub fn feed(seed: u64, program: ChildStdin) -> (Feed, Fed) {
    let (sender, receiver) = mpsc::channel();
    let mut random = Random::new(seed);
    let feed = Feed {
        size: size(&mut random),
        random,
        portion: Vec::new(),
        judge: sender,
        program: Ok(program),
    };
    let fed = Fed {
        portions: receiver,
        portion: Vec::new(),
        taken: 0,
    };
    (feed, fed)
}

/// Single bytes as often as some, some as often as many.
fn size(random: &mut Random) -> usize {
    let power = random.between(0, LARGEST);
    random.between(1, 1 << power) as usize
}

pub struct Feed {
    random: Random,
    /// The size of the portion that is being filled.
    size: usize,
    portion: Vec<u8>,
    judge: Sender<Vec<u8>>,
    /// The program's standard input, or why it takes no more.
    program: io::Result<ChildStdin>,
}

impl Feed {
    /// Hands a whole script on. It is an error if the program did not take all of it.
    pub fn whole(mut self, write: impl FnOnce(&mut Self) -> io::Result<()>) -> io::Result<()> {
        write(&mut self)?;
        self.flush()?;
        self.program.map(drop)
    }
}

impl Write for Feed {
    fn write(&mut self, bytes: &[u8]) -> io::Result<usize> {
        let taken = bytes.len().min(self.size - self.portion.len());
        self.portion.extend(&bytes[..taken]);
        if self.portion.len() == self.size {
            self.flush()?;
            self.size = size(&mut self.random);
        }
        Ok(taken)
    }

    /// Hands on what the portion has. The judge gets it first, and also where the program takes no
    /// more: its listing is that of the whole script. If the judge is gone, there is no more to do.
    fn flush(&mut self) -> io::Result<()> {
        let portion = std::mem::take(&mut self.portion);
        let copy = portion.clone();
        self.judge.send(copy).map_err(|_| ErrorKind::BrokenPipe)?;
        if let Ok(program) = &mut self.program {
            if let Err(error) = program.write_all(&portion) {
                self.program = Err(error);
            }
        }
        Ok(())
    }
}

pub struct Fed {
    portions: Receiver<Vec<u8>>,
    portion: Vec<u8>,
    taken: usize,
}

impl BufRead for Fed {
    fn fill_buf(&mut self) -> io::Result<&[u8]> {
        while self.taken == self.portion.len() {
            // The script ends when its writer is gone.
            let Ok(portion) = self.portions.recv() else {
                return Ok(&[]);
            };
            self.portion = portion;
            self.taken = 0;
        }
        Ok(&self.portion[self.taken..])
    }

    fn consume(&mut self, amount: usize) {
        self.taken += amount;
    }
}

impl Read for Fed {
    fn read(&mut self, buffer: &mut [u8]) -> io::Result<usize> {
        let taken = self.fill_buf()?.read(buffer)?;
        self.consume(taken);
        Ok(taken)
    }
}

#[cfg(test)]
mod tests {
    use super::*;

    #[test]
    fn portions_are_single_bytes_and_many() {
        let mut random = Random::new(1);
        let sizes: Vec<usize> = (0..1000).map(|_| size(&mut random)).collect();
        assert!(sizes.iter().all(|size| (1..=128 << 10).contains(size)));
        assert!(sizes.iter().filter(|&&size| size == 1).count() > 50);
        assert!(sizes.iter().filter(|&&size| size > 64 << 10).count() > 10);
    }
}
