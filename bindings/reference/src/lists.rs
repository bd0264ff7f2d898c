//! The host interface's five lists, and the board that they hold.

use crate::board::{Board, Columns, MESSAGES};
use crate::numbers::NUMBERS;

/// Of `bytes`: channels, from here the messages' statuses, from here the matches' chords.
pub const STATUSES: usize = MESSAGES;
pub const CHORDS: usize = 2 * MESSAGES;
pub const BYTES: usize = 3 * MESSAGES;
/// Of `links`: the matches that the messages note, from here their wakers, from here the matches' messages, from here
/// the units of messages.
pub const WAKERS: usize = MESSAGES;
pub const MEMBERS: usize = 2 * MESSAGES;
pub const UNITS: usize = 10 * MESSAGES;
pub const LINKS: usize = 11 * MESSAGES;
/// Of `keys`: properties, from here days, and the close day, which says something only where a day is closed.
pub const DAYS: usize = MESSAGES;
pub const CLOSE_DAY: usize = 2 * MESSAGES;
pub const KEYS: usize = CLOSE_DAY + 1;

#[derive(Clone, Debug, PartialEq, Eq)]
pub struct Lists {
    pub board: Vec<u16>,
    pub bytes: Vec<u8>,
    pub links: Vec<u16>,
    pub keys: Vec<u32>,
    pub cents: Vec<i64>,
}

impl Default for Lists {
    fn default() -> Lists {
        Lists {
            board: vec![0; NUMBERS],
            bytes: vec![0; BYTES],
            links: vec![0; LINKS],
            keys: vec![0; KEYS],
            cents: vec![0; MESSAGES],
        }
    }
}

impl Lists {
    pub fn of(board: &Board) -> Lists {
        let mut lists = Lists::default();
        lists.hold(board);
        lists
    }

    /// Lists of their lengths hold the board from now on. Where no day is closed, what stands for the close day stays.
    pub fn hold(&mut self, board: &Board) {
        let columns = &board.columns;
        self.board.copy_from_slice(&board.to_numbers());
        self.bytes[..STATUSES].copy_from_slice(&columns.channels[..]);
        self.bytes[STATUSES..CHORDS].copy_from_slice(&columns.statuses[..]);
        self.bytes[CHORDS..].copy_from_slice(&columns.chords[..]);
        self.links[..WAKERS].copy_from_slice(&columns.matched[..]);
        self.links[WAKERS..MEMBERS].copy_from_slice(&columns.wakers[..]);
        self.links[MEMBERS..UNITS].copy_from_slice(columns.messages.as_flattened());
        self.links[UNITS..].copy_from_slice(&columns.units[..]);
        self.keys[..DAYS].copy_from_slice(&columns.properties[..]);
        self.keys[DAYS..CLOSE_DAY].copy_from_slice(&columns.days[..]);
        self.keys[CLOSE_DAY] = board.close_day.unwrap_or(self.keys[CLOSE_DAY]);
        self.cents.copy_from_slice(&columns.cents[..]);
    }

    /// The board that is held, in the columns' memory; none for lists of another length or numbers that are no board's.
    pub fn held(&self, mut columns: Columns) -> Option<Board> {
        let lengths = [self.bytes.len(), self.links.len(), self.keys.len(), self.cents.len()];
        if lengths != [BYTES, LINKS, KEYS, MESSAGES] {
            return None;
        }
        columns.channels.copy_from_slice(&self.bytes[..STATUSES]);
        columns.statuses.copy_from_slice(&self.bytes[STATUSES..CHORDS]);
        columns.chords.copy_from_slice(&self.bytes[CHORDS..]);
        columns.matched.copy_from_slice(&self.links[..WAKERS]);
        columns.wakers.copy_from_slice(&self.links[WAKERS..MEMBERS]);
        columns.messages.as_flattened_mut().copy_from_slice(&self.links[MEMBERS..UNITS]);
        columns.units.copy_from_slice(&self.links[UNITS..]);
        columns.properties.copy_from_slice(&self.keys[..DAYS]);
        columns.days.copy_from_slice(&self.keys[DAYS..CLOSE_DAY]);
        columns.cents.copy_from_slice(&self.cents);
        Board::from_numbers(&self.board, self.keys[CLOSE_DAY], columns)
    }

    /// Copies the other's contents without asking for memory.
    pub fn copy(&mut self, other: &Lists) {
        self.board.clone_from(&other.board);
        self.bytes.clone_from(&other.bytes);
        self.links.clone_from(&other.links);
        self.keys.clone_from(&other.keys);
        self.cents.clone_from(&other.cents);
    }
}
