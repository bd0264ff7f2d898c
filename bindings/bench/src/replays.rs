//! Replays: pairs, triples, and a contended morning; and adds, of own messages and of common ones.

use crate::report::{Target, heading, row, row_of_proved};
use crate::schedule::{Schedule, by_chance, in_turn, pairs};
use crate::tables;
use crate::timing::{REPLAY_ROUNDS, Times, least, timed};
use crate::world::{Proved, restore};
use reference::Equality::{Property, Unit};
use reference::{Board, Call, Rows, Sent, calls};

const SPEED: Target = Target::AtLeast(0.85);

/// A replay from a board; the other lists keep what the round before left, where they were empty.
pub fn times(table: &[u8], board: &Board, rows: &Rows) -> Times {
    let saved = Proved::of(board);
    let (mut proved, mut plain) = (saved.clone(), board.clone());
    let (mut said, mut answers) = (vec![0; rows.len()], vec![0; rows.len()]);
    let best = least(
        REPLAY_ROUNDS,
        || {
            if board.messages > 0 {
                proved.restore(&saved);
            }
            proved.lists.board.copy_from_slice(&saved.lists.board);
            timed(|| assert_eq!(proved.replay(table, rows, &mut said), 0))
        },
        || {
            if board.messages > 0 {
                restore(&mut plain, board);
            }
            (plain.messages, plain.matches) = (board.messages, board.matches);
            (plain.senders, plain.counts) = (board.senders, board.counts);
            timed(|| calls::replay(table, &mut plain, rows, &mut answers).unwrap())
        },
    );
    assert_eq!(said, answers);
    best
}

pub fn matches() {
    let side = |place: u16, message: u16| (place % 2, u32::from(message / 2 % 16));
    let (pairs, triples) = (tables::rendezvous(), tables::triples());
    let (morning, of_units) = (tables::morning(Property), tables::morning(Unit));
    let lists = [
        ("pairs, 2 senders at a time", &pairs, in_turn(&pairs, 2, |place, _| (place, 0))),
        ("pairs, 32 senders, 16 properties", &pairs, in_turn(&pairs, 32, side)),
        ("triples, 3 senders at a time", &triples, in_turn(&triples, 3, |place, _| (place, 0))),
        ("contended morning, 32 senders", &morning, by_chance(&morning, 4, 0, 0, 9564)),
        ("the same with 30 days", &morning, by_chance(&morning, 4, 30, 0, 3208)),
        ("the same with 30 days and 4 units", &of_units, by_chance(&of_units, 4, 30, 4, 8018)),
        ("steps of idle senders, refused", &pairs, Schedule { rows: steps_of_each(32, 256), matches: 0 }),
    ];
    let measured: Vec<_> =
        lists.iter().map(|(name, table, list)| (name, list, times(table, &Board::default(), &list.rows))).collect();
    heading("2 replay", "ns a call", "speed");
    for (name, list, whole) in &measured {
        let (name, count) = (format!("{name} ({} calls)", list.rows.len()), list.rows.len() as f64);
        row(&name, whole.map(|ns| ns / count), 1.0 / whole.ratio(), SPEED);
    }
    heading("  the same", "thousand calls a second", "speed");
    for (name, list, whole) in &measured {
        row(name, whole.map(|ns| list.rows.len() as f64 * 1e6 / ns), 1.0 / whole.ratio(), SPEED);
    }
    heading("  the same", "thousand matches a second", "speed");
    for (at, (name, list, whole)) in measured.iter().enumerate().filter(|(_, (_, list, _))| list.matches > 0) {
        let figures = whole.map(|ns| f64::from(list.matches) * 1e6 / ns);
        let target = if at < 2 { Target::AtLeast(1000.0) } else { Target::None };
        row_of_proved(&format!("{name} ({} matches)", list.matches), figures, 1.0 / whole.ratio(), target);
    }
}

/// An add of each sender, which have added all but one of their own messages, or all: nanoseconds of a replay, less a
/// replay of none.
pub fn adds() {
    let (table, add) = (tables::rendezvous(), |sender| Call::Add { sender, sent: Sent::default() });
    let adds = Rows::of(&(0..32).map(add).collect::<Vec<_>>());
    heading("  an add within a replay", "ns", "speed");
    for (name, messages) in [("an own one: 480 messages", 480), ("a common one: 512 messages", 512)] {
        let board = pairs(&table, messages);
        let (whole, tests) = (times(&table, &board, &adds), times(&table, &board, &Rows::default()));
        let figures = whole.less(tests).map(|ns| ns / adds.len() as f64);
        row(name, figures, 1.0 / figures.ratio(), SPEED);
    }
}

/// So many steps of each sender, one sender after another.
pub fn steps_of_each(senders: u16, count: usize) -> Rows {
    let mut rows = Rows::default();
    for sender in 0..senders {
        (0..count).for_each(|_| rows.push(Call::Step { sender }));
    }
    rows
}
