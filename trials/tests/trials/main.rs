//! The comparisons of memories and of reasons: that they agree with right answers, that they fail with
//! wrong ones, what is drawn, and the programs as they are called.

mod draws;
mod programs;
mod why;
mod wrong;
