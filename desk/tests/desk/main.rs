//! The program `desk`: the file that it keeps, the streams, two of them at one file, what others do to it
//! meanwhile, and signals.

mod claims;
mod files;
mod others;
mod places;
mod signals;
mod streams;
mod support;
