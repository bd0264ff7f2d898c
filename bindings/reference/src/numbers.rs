//! The board as the host interface's 723 numbers, and the close day beside them.

use crate::backoff::{Backoff, ENTRIES};
use crate::board::{Board, Columns, Phase, SENDERS, Sender, State, held, kept};

/// Numbers a sender takes.
pub const SENDER_NUMBERS: usize = 21;
/// Where it stands whether a day is closed: after the two counts and the senders.
pub const HAS_CLOSE: usize = 2 + SENDER_NUMBERS * SENDERS;
/// From here, how many messages each sender has added.
pub const COUNTS: usize = HAS_CLOSE + 1;
/// From here, the backoff table.
pub const RESTS: usize = COUNTS + SENDERS;
/// Numbers a board takes.
pub const NUMBERS: usize = RESTS + ENTRIES;

impl Board {
    pub fn to_numbers(&self) -> [u16; NUMBERS] {
        let mut numbers = [0; NUMBERS];
        numbers[..2].copy_from_slice(&[self.messages, self.matches]);
        for (part, sender) in numbers[2..HAS_CLOSE].chunks_exact_mut(SENDER_NUMBERS).zip(&self.senders) {
            part.copy_from_slice(&sender.to_numbers());
        }
        numbers[HAS_CLOSE] = self.close_day.is_some().into();
        numbers[COUNTS..RESTS].copy_from_slice(&self.counts);
        numbers[RESTS..].copy_from_slice(&self.backoff.0.map(u16::from));
        numbers
    }

    /// None if the numbers are no board's. The close day is any number where no day is closed.
    pub fn from_numbers(numbers: &[u16], close_day: u32, columns: Columns) -> Option<Board> {
        let numbers: &[u16; NUMBERS] = numbers.try_into().ok()?;
        let close_day = flag(numbers[HAS_CLOSE])?.then_some(close_day);
        let mut board = Board { messages: numbers[0], matches: numbers[1], close_day, columns, ..Board::default() };
        for (part, sender) in numbers[2..HAS_CLOSE].chunks_exact(SENDER_NUMBERS).zip(&mut board.senders) {
            *sender = Sender::from_numbers(part)?;
        }
        board.counts.copy_from_slice(&numbers[COUNTS..RESTS]);
        board.backoff = entries(&numbers[RESTS..])?;
        Some(board)
    }
}

impl Sender {
    pub fn to_numbers(&self) -> [u16; SENDER_NUMBERS] {
        let mut numbers = [0; SENDER_NUMBERS];
        let (phase, at, second) = self.phase.to_numbers();
        numbers[..13].copy_from_slice(&[
            self.state as u16,
            self.signalled.into(),
            kept(self.own),
            kept(self.waker),
            kept(self.reply),
            kept(self.matched),
            self.subject,
            self.chord.into(),
            phase,
            at,
            second,
            self.retry.into(),
            self.retries.into(),
        ]);
        numbers[13..].copy_from_slice(&self.chosen);
        numbers
    }

    pub fn from_numbers(numbers: &[u16]) -> Option<Sender> {
        let numbers: &[u16; SENDER_NUMBERS] = numbers.try_into().ok()?;
        Some(Sender {
            state: *[State::Idle, State::Working, State::Blocked].get(numbers[0] as usize)?,
            signalled: flag(numbers[1])?,
            own: held(numbers[2]),
            waker: held(numbers[3]),
            reply: held(numbers[4]),
            matched: held(numbers[5]),
            subject: numbers[6],
            chord: numbers[7].try_into().ok()?,
            phase: Phase::from_numbers(numbers[8], numbers[9], numbers[10])?,
            retry: flag(numbers[11])?,
            retries: numbers[12].try_into().ok()?,
            chosen: numbers[13..].try_into().ok()?,
        })
    }
}

impl Phase {
    fn to_numbers(self) -> (u16, u16, u16) {
        let (phase, at, second) = match self {
            Phase::Look(at) => (0, at, 0),
            Phase::Claim(at) => (1, at, 0),
            Phase::Revert { at, made } => (2, at, made.into()),
            Phase::Consume { at, matched } => (3, at, kept(matched)),
            Phase::Tell(nth) => (4, nth, 0),
            Phase::Wake => (5, 0, 0),
            Phase::Free(nth) => (6, nth, 0),
            Phase::Signal => (7, 0, 0),
            Phase::PassEnd => (8, 0, 0),
            Phase::Backoff(left) => (9, left, 0),
        };
        (phase, at.into(), second)
    }

    fn from_numbers(phase: u16, at: u16, second: u16) -> Option<Phase> {
        match (phase, u8::try_from(at).ok()?, second) {
            (0, at, 0) => Some(Phase::Look(at)),
            (1, at, 0) => Some(Phase::Claim(at)),
            (2, at, made) => Some(Phase::Revert { at, made: made.try_into().ok()? }),
            (3, at, matched) => Some(Phase::Consume { at, matched: held(matched) }),
            (4, nth, 0) => Some(Phase::Tell(nth)),
            (5, 0, 0) => Some(Phase::Wake),
            (6, nth, 0) => Some(Phase::Free(nth)),
            (7, 0, 0) => Some(Phase::Signal),
            (8, 0, 0) => Some(Phase::PassEnd),
            (9, left, 0) => Some(Phase::Backoff(left)),
            _ => None,
        }
    }
}

/// None where an entry is no byte.
fn entries(numbers: &[u16]) -> Option<Backoff> {
    let mut backoff = Backoff::default();
    for (entry, &number) in backoff.0.iter_mut().zip(numbers) {
        *entry = number.try_into().ok()?;
    }
    Some(backoff)
}

fn flag(number: u16) -> Option<bool> {
    match number {
        0 => Some(false),
        1 => Some(true),
        _ => None,
    }
}
