//! Public calls, each with all its tests, on boards that are put back before every round.

use crate::report::{Target, heading, row, row_of_proved};
use crate::schedule::pairs;
use crate::tables;
use crate::timing::{CALL_ROUNDS, Times, least, timed};
use crate::world::{Proved, plain_call, restore};
use reference::{Board, Call, Sent, Table, calls};
use std::hint::black_box;

const RATIO: Target = Target::AtMost(1.1);
const ADD: Call = Call::Add { sender: 2, sent: Sent { channel: 0, property: 0, cents: 5, day: 0, unit: 0 } };

/// What the timed step does.
#[derive(Clone, Copy)]
pub enum Kind {
    Look,
    Claim,
}

/// A board of so many messages, in pairs, whose sender 1 is about to look over them or to claim; without messages all
/// senders are idle.
fn stepping(table: &[u8], messages: u16, kind: Kind) -> Board {
    let mut board = pairs(table, messages.saturating_sub(1));
    if messages > 0 {
        let read = Table::read(table).unwrap();
        board.core_call(&read, Call::Add { sender: 1, sent: Sent { channel: 1, cents: 5, ..Sent::default() } });
        for _ in 0..if let Kind::Look = kind { 0 } else { 2 } {
            board.core_step(&read, 1);
        }
    }
    board
}

/// One public call on a board.
fn times(table: &[u8], board: &Board, call: Call) -> Times {
    let saved = Proved::of(board);
    let (mut proved, mut plain) = (saved.clone(), board.clone());
    assert_eq!(proved.call(table, call), plain_call(&mut plain, table, call));
    least(
        CALL_ROUNDS,
        || {
            proved.restore(&saved);
            proved.quiet(table);
            timed(|| proved.call(table, call))
        },
        || {
            restore(&mut plain, board);
            let _ = black_box(calls::quiet(table, &plain));
            timed(|| plain_call(&mut plain, table, call))
        },
    )
}

pub fn step_times(messages: u16, kind: Kind) -> Times {
    let table = tables::rendezvous();
    times(&table, &stepping(&table, messages, kind), Call::Step { sender: 1 })
}

pub fn calls_of_all_sizes() {
    heading("1 public calls by messages on the board", "ns", "ratio");
    let bounded = |name: &str, messages: u16, figures: Times| {
        row(&format!("{name}: {messages}"), figures, figures.ratio(), RATIO);
    };
    for messages in [0, 128, 512, 1024] {
        let name = if messages == 0 { "step, refused" } else { "step, claims" };
        bounded(name, messages, step_times(messages, Kind::Claim));
    }
    for messages in [128, 512, 1024] {
        bounded("step, looks over all", messages, step_times(messages, Kind::Look));
    }
    let table = tables::rendezvous();
    for messages in [0, 128, 512, 1023, 1024] {
        let name = if messages == 1024 { "add, refused" } else { "add" };
        bounded(name, messages, times(&table, &pairs(&table, messages), ADD));
    }
    for (name, count) in [("add, an own one", 15), ("add, a common one", 17)] {
        let mut board = pairs(&table, 512);
        (board.counts[2], board.counts[3]) = (count, 32 - count);
        bounded(name, 512, times(&table, &board, ADD));
    }
    for messages in [0, 512, 1024] {
        bounded("close", messages, times(&table, &pairs(&table, messages), Call::Close { day: 30 }));
    }
}

/// The tests alone, on a full board of 512 matches, and on an empty one.
pub fn soundness() {
    heading("5 soundness test", "ns", "ratio");
    let table = tables::rendezvous();
    let full = pairs(&table, 1024);
    let figures = quiet_times(&table, &full);
    row_of_proved("gv_quiet, 1,024 messages, 512 matches", figures, figures.ratio(), Target::AtMost(2000.0));
    let figures = quiet_times(&table, &pairs(&table, 0));
    row("gv_quiet, no messages", figures, figures.ratio(), Target::None);
}

fn quiet_times(table: &[u8], board: &Board) -> Times {
    let proved = Proved::of(board);
    assert_eq!((proved.quiet(table), calls::quiet(table, board)), (0, Ok(true)));
    let plain = || calls::quiet(black_box(table), black_box(board));
    least(CALL_ROUNDS, || timed(|| proved.quiet(table)), || timed(plain))
}
