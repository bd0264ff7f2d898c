//! One board in both forms: the host library's lists, and plain Rust's.

use gevnyusto::host;
use reference::{Board, Call, Lists, Rows, Sent, calls};
use std::hint::black_box;

#[derive(Clone)]
pub struct Proved {
    pub lists: host::Lists,
}

impl Proved {
    pub fn of(board: &Board) -> Proved {
        let Lists { board, bytes, links, keys, cents } = Lists::of(board);
        Proved { lists: host::Lists { board, bytes, links, keys, cents } }
    }

    pub fn restore(&mut self, saved: &Proved) {
        let (to, from) = (&mut self.lists, &saved.lists);
        to.board.copy_from_slice(&from.board);
        to.bytes.copy_from_slice(&from.bytes);
        to.links.copy_from_slice(&from.links);
        to.keys.copy_from_slice(&from.keys);
        to.cents.copy_from_slice(&from.cents);
    }

    pub fn call(&mut self, table: &[u8], call: Call) -> u32 {
        let lists = black_box(&mut self.lists);
        match black_box(call) {
            Call::Add { sender, sent: Sent { channel, property, cents, day, unit } } => {
                host::add(table, lists, sender, channel, property, cents, day, unit)
            }
            Call::Step { sender } => host::step(table, lists, sender),
            Call::Close { day } => host::close(table, lists, day),
        }
    }

    /// The refusal number, 0 for none; what is read is not looked at.
    pub fn quiet(&self, table: &[u8]) -> u8 {
        host::quiet(black_box(table), black_box(&self.lists), &mut [0])
    }

    pub fn replay(&mut self, table: &[u8], rows: &Rows, answers: &mut [u32]) -> u8 {
        let calls = host::Replay { calls: &rows.calls, numbers: &rows.numbers, amounts: &rows.amounts };
        host::replay(table, &mut self.lists, calls, answers)
    }
}

/// Copies a plain board over another, in place.
pub fn restore(board: &mut Board, saved: &Board) {
    (board.messages, board.matches, board.senders) = (saved.messages, saved.matches, saved.senders);
    (board.close_day, board.counts) = (saved.close_day, saved.counts);
    let (to, from) = (&mut board.columns, &saved.columns);
    *to.channels = *from.channels;
    *to.properties = *from.properties;
    *to.days = *from.days;
    *to.units = *from.units;
    *to.cents = *from.cents;
    *to.statuses = *from.statuses;
    *to.matched = *from.matched;
    *to.wakers = *from.wakers;
    *to.chords = *from.chords;
    *to.messages = *from.messages;
}

/// A public call of plain Rust, with all its tests.
pub fn plain_call(board: &mut Board, table: &[u8], call: Call) -> u32 {
    calls::call(black_box(table), black_box(board), black_box(call)).number()
}
