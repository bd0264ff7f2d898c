//! What an add, a step or a close answers.

use crate::Refusal;
use std::fmt;

/// One case for each word, with a message or match number where the word has one.
#[derive(Clone, Copy, Debug, PartialEq, Eq)]
pub enum Answer {
    Item(u16),
    Looked(u16),
    Missed,
    Claimed(u16),
    Lost(u16),
    Reverted(u16),
    Matched(u16),
    Consumed(u16),
    Told(u16),
    Woke(u16),
    Freed(u16),
    Signalled(u16),
    Again,
    Ended,
    Rested,
    Answered(u16),
    Resumed,
    Closed,
}

impl Answer {
    /// From the host library's number, word * 65,536 + value.
    pub(crate) fn from_number(number: u32) -> Result<Answer, Refusal> {
        let value = number as u16;
        Ok(match number >> 16 {
            0 => Answer::Item(value),
            1 => Answer::Looked(value),
            2 => Answer::Missed,
            3 => Answer::Claimed(value),
            4 => Answer::Lost(value),
            5 => Answer::Reverted(value),
            6 => Answer::Matched(value),
            7 => Answer::Consumed(value),
            8 => Answer::Told(value),
            9 => Answer::Woke(value),
            10 => Answer::Freed(value),
            11 => Answer::Signalled(value),
            12 => Answer::Again,
            13 => Answer::Ended,
            14 => Answer::Rested,
            15 => Answer::Answered(value),
            16 => Answer::Resumed,
            18 => Answer::Closed,
            _ => return Err(Refusal::from_number(value as u8)),
        })
    }
}

impl fmt::Display for Answer {
    fn fmt(&self, f: &mut fmt::Formatter) -> fmt::Result {
        match self {
            Answer::Item(n) => write!(f, "item {n}"),
            Answer::Looked(n) => write!(f, "looked {n}"),
            Answer::Missed => f.write_str("missed"),
            Answer::Claimed(n) => write!(f, "claimed {n}"),
            Answer::Lost(n) => write!(f, "lost {n}"),
            Answer::Reverted(n) => write!(f, "reverted {n}"),
            Answer::Matched(k) => write!(f, "matched {k}"),
            Answer::Consumed(n) => write!(f, "consumed {n}"),
            Answer::Told(n) => write!(f, "told {n}"),
            Answer::Woke(n) => write!(f, "woke {n}"),
            Answer::Freed(n) => write!(f, "freed {n}"),
            Answer::Signalled(n) => write!(f, "signalled {n}"),
            Answer::Again => f.write_str("again"),
            Answer::Ended => f.write_str("ended"),
            Answer::Rested => f.write_str("rested"),
            Answer::Answered(k) => write!(f, "answered {k}"),
            Answer::Resumed => f.write_str("resumed"),
            Answer::Closed => f.write_str("closed"),
        }
    }
}
