//! The public calls: each gives the table's refusal first, then 30 for a board that is not sound.

use crate::answer::{Answer, Refusal};
use crate::backoff::Backoff;
use crate::board::{Board, held};
use crate::table::Table;

/// A message as it is added.
#[derive(Clone, Copy, Debug, Default, PartialEq, Eq)]
pub struct Sent {
    pub channel: u16,
    pub property: u32,
    pub cents: i64,
    pub day: u32,
    pub unit: u16,
}

#[derive(Clone, Copy, Debug, PartialEq, Eq)]
pub struct Message {
    pub channel: u8,
    pub property: u32,
    pub cents: i64,
    pub day: u32,
    pub unit: u16,
    pub status: u8,
    pub matched: Option<u16>,
    pub waker: Option<u16>,
}

#[derive(Clone, Copy, Debug, PartialEq, Eq)]
pub struct Match {
    pub chord: u8,
    pub len: u8,
    pub cents: i64,
    pub messages: [u16; 8],
}

#[derive(Clone, Copy, Debug, PartialEq, Eq)]
pub enum Call {
    Add { sender: u16, sent: Sent },
    Step { sender: u16 },
    Close { day: u32 },
}

impl Call {
    /// None of a close, which is the office's.
    pub fn sender(self) -> Option<usize> {
        match self {
            Call::Add { sender, .. } | Call::Step { sender } => Some(sender.into()),
            Call::Close { .. } => None,
        }
    }
}

/// Kinds of a replay's calls; any other is an add.
pub const STEP: u16 = 0;
pub const ADD: u16 = 1;
pub const CLOSE: u16 = 2;

/// The calls of a replay in rows, as the host interface has them. Of `calls` the kind, the sender, the channel and the
/// unit; a kind of 0 is a step, 2 a close, any other an add. Of `numbers` the property and the day. Of a close only
/// the day is read, of a step only the sender.
#[derive(Clone, Debug, Default)]
pub struct Rows {
    pub calls: Vec<u16>,
    pub numbers: Vec<u32>,
    pub amounts: Vec<i64>,
}

/// The table, if it is accepted and the board sound.
fn judged(table: &[u8], board: &Board) -> Result<Table, Refusal> {
    let table = Table::read(table)?;
    if board.is_sound(&table) { Ok(table) } else { Err(30) }
}

/// An empty board, with the built-in backoff table.
pub fn open(table: &[u8]) -> Result<Board, Refusal> {
    Table::read(table).map(|_| Board::default())
}

/// An empty board, with that backoff table.
pub fn open_with_rests(table: &[u8], rests: &[u8]) -> Result<Board, Refusal> {
    Table::read(table)?;
    let backoff = Backoff::given(rests).ok_or(21)?;
    Ok(Board { backoff, ..Board::default() })
}

pub fn call(table: &[u8], board: &mut Board, call: Call) -> Answer {
    match judged(table, board) {
        Ok(table) => board.core_call(&table, call),
        Err(number) => Answer::Refused(number),
    }
}

pub fn add(table: &[u8], board: &mut Board, sender: u16, sent: Sent) -> Answer {
    call(table, board, Call::Add { sender, sent })
}

pub fn step(table: &[u8], board: &mut Board, sender: u16) -> Answer {
    call(table, board, Call::Step { sender })
}

pub fn close(table: &[u8], board: &mut Board, day: u32) -> Answer {
    call(table, board, Call::Close { day })
}

pub fn message(table: &[u8], board: &Board, number: u16) -> Result<Message, Refusal> {
    judged(table, board)?;
    if number < board.messages { Ok(board.message(number)) } else { Err(14) }
}

pub fn match_(table: &[u8], board: &Board, number: u16) -> Result<Match, Refusal> {
    let table = judged(table, board)?;
    if number < board.matches { Ok(board.match_(&table, number)) } else { Err(15) }
}

/// What the sender's slip reads.
pub fn reply(table: &[u8], board: &Board, sender: u16) -> Result<Option<u16>, Refusal> {
    judged(table, board)?;
    board.senders.get(sender as usize).map(|sender| sender.reply).ok_or(8)
}

pub fn quiet(table: &[u8], board: &Board) -> Result<bool, Refusal> {
    judged(table, board)?;
    Ok(board.is_quiet())
}

/// Plays the calls in order and writes each answer as a number.
pub fn replay(table: &[u8], board: &mut Board, rows: &Rows, answers: &mut [u32]) -> Result<(), Refusal> {
    let table = judged(table, board)?;
    let count = rows.len();
    if rows.calls.len() != 4 * count || rows.numbers.len() != 2 * count {
        return Err(30);
    }
    if answers.len() < count {
        return Err(31);
    }
    for (at, answer) in answers[..count].iter_mut().enumerate() {
        *answer = board.core_call(&table, rows.at(at)).number();
    }
    Ok(())
}

impl Rows {
    pub fn of(calls: &[Call]) -> Rows {
        let mut rows = Rows::default();
        calls.iter().for_each(|&call| rows.push(call));
        rows
    }

    pub fn push(&mut self, call: Call) {
        let (row, numbers, amount) = match call {
            Call::Add { sender, sent: Sent { channel, property, cents, day, unit } } => {
                ([ADD, sender, channel, unit], [property, day], cents)
            }
            Call::Step { sender } => ([STEP, sender, 0, 0], [0, 0], 0),
            Call::Close { day } => ([CLOSE, 0, 0, 0], [0, day], 0),
        };
        self.calls.extend(row);
        self.numbers.extend(numbers);
        self.amounts.push(amount);
    }

    /// How many calls.
    pub fn len(&self) -> usize {
        self.amounts.len()
    }

    pub fn is_empty(&self) -> bool {
        self.amounts.is_empty()
    }

    fn at(&self, at: usize) -> Call {
        let [kind, sender, channel, unit] = self.calls.as_chunks().0[at];
        let [property, day] = self.numbers.as_chunks().0[at];
        match kind {
            STEP => Call::Step { sender },
            CLOSE => Call::Close { day },
            _ => Call::Add { sender, sent: Sent { channel, property, cents: self.amounts[at], day, unit } },
        }
    }
}

impl Board {
    /// A call on a sound board, without the tests.
    pub fn core_call(&mut self, table: &Table, call: Call) -> Answer {
        match call {
            Call::Add { sender, sent } => self.core_add(table, sender, sent),
            Call::Step { sender } => self.core_step(table, sender),
            Call::Close { day } => self.core_close(day),
        }
    }

    /// Closes the books up to that day, which is not before the one up to which they are.
    pub fn core_close(&mut self, day: u32) -> Answer {
        if self.close_day.is_some_and(|close_day| day < close_day) {
            return Answer::Refused(20);
        }
        self.close_day = Some(day);
        Answer::Closed
    }

    /// A counted message.
    pub fn message(&self, number: u16) -> Message {
        let at = number as usize;
        Message {
            channel: self.columns.channels[at],
            property: self.columns.properties[at],
            cents: self.columns.cents[at],
            day: self.columns.days[at],
            unit: self.columns.units[at],
            status: self.columns.statuses[at],
            matched: held(self.columns.matched[at]),
            waker: held(self.columns.wakers[at]),
        }
    }

    /// A counted match, with 0 for the messages that its chord does not have.
    pub fn match_(&self, table: &Table, number: u16) -> Match {
        let chord = self.columns.chords[number as usize];
        let len = table.chord(chord).len;
        let mut messages = [0; 8];
        messages[..len.into()].copy_from_slice(&self.columns.messages[number as usize][..len.into()]);
        let cents = messages[..len.into()].iter().map(|&message| self.columns.cents[message as usize]).sum();
        Match { chord, len, cents, messages }
    }

    /// The first sender whose step would not be refused 13.
    pub fn first_busy(&self) -> Option<u16> {
        self.senders.iter().position(|sender| !sender.at_rest()).map(|sender| sender as u16)
    }
}
