//! A run of a script as a page that can be stepped through.
//!
//! - [`run`]: a script played by the proved calls, and what each line changed.
//! - [`data`]: a run as text, written and read.
//! - [`code`]: the proved calls, compiled for a page, as text.
//! - [`page`]: the page around all this, and its parts found again.
//! - [`check`]: a page held against the proved calls.
//! - `difference`: where the two differ, in words.
//! - [`files`]: what is read from files and streams.
//! - [`text`]: bytes as text that can be read, and text as markup.

pub mod check;
pub mod code;
pub mod data;
mod difference;
pub mod files;
pub mod page;
pub mod run;
pub mod text;
