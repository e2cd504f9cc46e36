//! Every call from Rust: its report, the memory and the part that it leaves, and what it refuses.

mod answers;
mod head;
mod letters;
mod listings;
mod memory;
mod paging;
mod parts;
mod player;
mod reasons;
mod support;
mod turn;
mod why;
