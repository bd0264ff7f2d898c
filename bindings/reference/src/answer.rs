//! What a call answers: one of 01's words, a refusal number, or that a day was closed.

use std::fmt;

/// 01's refusal number.
pub type Refusal = u8;

#[derive(Clone, Copy, Debug, PartialEq, Eq)]
pub enum Answer {
    Item(u16),
    Looked(u16),
    Missed,
    Claimed(u16),
    Lost(u16),
    Reverted(u16),
    Matched(u16),
    Consumed(u16),
    Told(u16),
    Woke(u16),
    Freed(u16),
    Signalled(u16),
    Again,
    Ended,
    Rested,
    Answered(u16),
    Resumed,
    Refused(Refusal),
    Closed,
}

/// The words, in the order of their numbers: 01's, and the one of a close.
#[rustfmt::skip]
pub const WORDS: [&str; 19] = [
    "item", "looked", "missed", "claimed", "lost", "reverted", "matched", "consumed", "told", "woke", "freed",
    "signalled", "again", "ended", "rested", "answered", "resumed", "refused", "closed",
];

impl Answer {
    /// The word's number, and the item, match or refusal number where the word has one.
    pub fn parts(self) -> (usize, Option<u16>) {
        match self {
            Answer::Item(n) => (0, Some(n)),
            Answer::Looked(n) => (1, Some(n)),
            Answer::Missed => (2, None),
            Answer::Claimed(n) => (3, Some(n)),
            Answer::Lost(n) => (4, Some(n)),
            Answer::Reverted(n) => (5, Some(n)),
            Answer::Matched(n) => (6, Some(n)),
            Answer::Consumed(n) => (7, Some(n)),
            Answer::Told(n) => (8, Some(n)),
            Answer::Woke(n) => (9, Some(n)),
            Answer::Freed(n) => (10, Some(n)),
            Answer::Signalled(n) => (11, Some(n)),
            Answer::Again => (12, None),
            Answer::Ended => (13, None),
            Answer::Rested => (14, None),
            Answer::Answered(n) => (15, Some(n)),
            Answer::Resumed => (16, None),
            Answer::Refused(number) => (17, Some(number.into())),
            Answer::Closed => (18, None),
        }
    }

    /// The answer as one number: word * 65,536 + value.
    pub fn number(self) -> u32 {
        let (word, value) = self.parts();
        word as u32 * 65_536 + u32::from(value.unwrap_or(0))
    }
}

impl fmt::Display for Answer {
    fn fmt(&self, f: &mut fmt::Formatter) -> fmt::Result {
        let (word, value) = self.parts();
        f.write_str(WORDS[word])?;
        value.map_or(Ok(()), |value| write!(f, " {value}"))
    }
}
