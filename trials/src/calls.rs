//! The calls that are tried.

use crate::asked::Asked;

/// The calls of `fugu::calls`, those that change the memory as one. Each returns what its call does:
/// the verdict of the test, else how many words it wrote into the part.
pub trait Calls {
    fn test(&self, memory: &[u32]) -> u32;
    fn head(&self, memory: &[u32], part: &mut [u32]) -> u32;
    fn paging(&self, memory: &[u32], part: &mut [u32]) -> u32;
    fn ask(&self, asked: &Asked, memory: &mut [u32], part: &mut [u32]) -> u32;
}

/// The proved library.
pub struct Proved;

impl Calls for Proved {
    fn test(&self, memory: &[u32]) -> u32 {
        fugu::calls::test(memory)
    }

    fn head(&self, memory: &[u32], part: &mut [u32]) -> u32 {
        fugu::calls::head(memory, part)
    }

    fn paging(&self, memory: &[u32], part: &mut [u32]) -> u32 {
        fugu::calls::paging(memory, part)
    }

    fn ask(&self, asked: &Asked, memory: &mut [u32], part: &mut [u32]) -> u32 {
        match asked {
            Asked::PowerOn => fugu::calls::power_on(memory, part),
            Asked::Step(letter, numbers) => fugu::calls::step(memory, *letter, numbers, part),
            Asked::Line(text) => fugu::calls::line(memory, text, part),
        }
    }
}
