//! A second player, cell by cell, written from the pages in docs/ alone. It shares no code with crates/.
//!
//! Plain and slow on purpose: every drawing first lists its cells with their new words, and then sets them.

pub mod codes;
pub mod file;
pub mod picture;
pub mod program;
pub mod run;

#[cfg(test)]
mod examples;
