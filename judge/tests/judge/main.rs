//! The judge's own tests: every case that the paper gives, the choices that it leaves, the private line
//! over random runs, memories, what is told of them and where they differ, why messages were buffered, why
//! lines can't be read, the programs as they are called, and the scripts that they are measured with.

mod acts;
mod cases;
mod check;
mod comparisons;
mod differ;
mod forced;
mod generator;
mod in_place;
mod measured;
mod memory;
mod private_line;
mod programs;
mod readings;
mod state;
mod support;
mod swap;
mod trials;
mod turn;
mod why;
mod wiped;
