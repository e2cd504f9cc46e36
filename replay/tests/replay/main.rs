//! The program `replay`: what it plays, the page that it writes, the pages that it checks, its options and its
//! input, good and bad.

mod bad_input;
mod checks;
mod documents;
mod options;
mod pages;
mod states;
mod support;
mod xml;
