//! The calls that are compared, over either implementation.

pub use reference::Call;
use reference::{Lists, Rows};

#[derive(Clone, Copy, Debug)]
pub enum Read {
    Message(u16),
    Match(u16),
    Reply(u16),
    Quiet,
}

impl Read {
    /// How many numbers it reads.
    pub fn len(self) -> usize {
        match self {
            Read::Message(_) => 8,
            Read::Match(_) => 11,
            Read::Reply(_) | Read::Quiet => 1,
        }
    }
}

const REFUSED: u32 = 17;

/// The answer of a call that is refused so.
pub fn refused(number: u32) -> u32 {
    REFUSED << 16 | number
}

pub fn is_refusal(answer: u32) -> bool {
    answer >> 16 == REFUSED
}

/// The host interface. Answers and refusals are its numbers.
pub trait Calls {
    fn table_refusal(&mut self, table: &[u8]) -> u8;
    /// With that backoff table, or where none is given with the built-in one.
    fn open(&mut self, table: &[u8], rests: Option<&[u8]>, board: &mut [u16]) -> u8;
    fn call(&mut self, table: &[u8], lists: &mut Lists, call: Call) -> u32;
    fn replay(&mut self, table: &[u8], lists: &mut Lists, rows: &Rows, answers: &mut [u32]) -> u8;
    fn read(&mut self, table: &[u8], lists: &mut Lists, read: Read, out: &mut [i64]) -> u8;
    fn merge(&mut self, merge: &Merge, out: &mut [u8]) -> u8;
}

/// Two tables, and for each channel of the second a byte that says what it becomes.
#[derive(Clone, Debug)]
pub struct Merge {
    pub first: Vec<u8>,
    pub second: Vec<u8>,
    pub map: Vec<u8>,
}
