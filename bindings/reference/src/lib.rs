//! The matching board in plain Rust, written from the prose of the scope paper (01) and of the requests (02) that have
//! landed, and not from the proved code.
//!
//! It serves as the second opinion of the differential test and as the baseline of the benchmarks. Where 01 is silent
//! it follows docs/DECISIONS.md and the host interface, so that boards can be compared number by number: going idle
//! clears the signal and keeps the other numbers; the match of the own message is noted when that is consumed; tell
//! and free count what is told and freed; a backoff counts the rests after the next one; a rest clears the retry mark;
//! the chord at the end of a pass is 0.

pub mod answer;
pub mod backoff;
pub mod board;
pub mod calls;
pub mod lists;
pub mod look;
pub mod merge;
pub mod numbers;
pub mod one_by_one;
pub mod sound;
pub mod step;
pub mod table;

pub use answer::{Answer, Refusal};
pub use backoff::Backoff;
pub use board::{Board, Columns, Phase, Sender, State};
pub use calls::{Call, Match, Message, Rows, Sent};
pub use lists::Lists;
pub use numbers::{COUNTS, HAS_CLOSE, NUMBERS, RESTS, SENDER_NUMBERS};
pub use table::{Chord, Equality, Table};

#[cfg(test)]
mod backoff_tests;
#[cfg(test)]
mod close_tests;
#[cfg(test)]
mod look_tests;
#[cfg(test)]
mod merge_tests;
#[cfg(test)]
mod share_tests;
#[cfg(test)]
mod tests;
#[cfg(test)]
mod unit_tests;
