//! How fast the reference is: rendezvous pairs replayed, full public steps, the soundness test of a full board, and
//! looks over a full board.

use reference::look::Wanted;
use reference::{Answer, Board, Call, Columns, Equality, Rows, Sent, Table, calls};
use std::hint::black_box;
use std::time::Instant;

/// Two waiting channels, one chord of both with equal property numbers.
const RENDEZVOUS: [u8; 20] = [2, 0, 1, 0, 2, 0, 12, 0, 14, 0, 18, 0, 1, 1, 0, 0, 2, 1, 0, 1];
const PAIRS: u16 = 512;

/// Calls of pairs that meet one after the other, of all 32 senders in turn, until the board is full.
fn rendezvous() -> Vec<Call> {
    let table = Table::read(&RENDEZVOUS).unwrap();
    let (mut board, mut calls) = (Board::default(), Vec::new());
    for pair in 0..PAIRS {
        for channel in [0, 1] {
            let sent = Sent { channel, property: pair.into(), cents: 1, ..Sent::default() };
            let call = Call::Add { sender: (2 * pair + channel) % 32, sent };
            calls.push(call);
            board.core_call(&table, call);
            while let Some(sender) = board.first_busy() {
                calls.push(Call::Step { sender });
                assert!(!matches!(board.core_step(&table, sender), Answer::Refused(_)));
            }
        }
    }
    assert_eq!(board.matches, PAIRS);
    calls
}

/// Nanoseconds of one of `count` runs, the best of seven.
fn nanoseconds(count: u32, mut run: impl FnMut()) -> f64 {
    let time = |_| {
        let start = Instant::now();
        (0..count).for_each(|_| run());
        start.elapsed().as_nanos() as f64 / f64::from(count)
    };
    (0..7).map(time).fold(f64::MAX, f64::min)
}

fn main() {
    let table = Table::read(&RENDEZVOUS).unwrap();
    let list = rendezvous();
    let (rows, mut answers) = (Rows::of(&list), vec![0; list.len()]);
    let mut board = Board::default();
    let replay = nanoseconds(200, || {
        (board.messages, board.matches, board.senders, board.counts) = Default::default();
        calls::replay(&RENDEZVOUS, &mut board, black_box(&rows), &mut answers).unwrap();
        black_box(&answers);
    });
    let (pairs, count) = (f64::from(PAIRS), list.len());
    println!("replay of {PAIRS} pairs, {count} calls: {:.2} million matches a second", pairs * 1e3 / replay);
    println!("  {:.1} ns a call", replay / count as f64);

    let public = nanoseconds(10, || {
        let mut board = Board::default();
        for call in &list {
            black_box(calls::call(&RENDEZVOUS, &mut board, *call));
        }
    });
    println!("public calls, each with all tests: {:.1} ns a call", public / count as f64);

    let full = board;
    assert_eq!(full.messages, 1024);
    let sound = nanoseconds(20_000, || assert!(black_box(&full).is_sound(black_box(&table))));
    println!("soundness of a full board: {sound:.0} ns");
    let table_time = nanoseconds(100_000, || drop(black_box(Table::read(black_box(&RENDEZVOUS)))));
    println!("reading the table: {table_time:.0} ns");
    looks();
}

/// A look for a pending message of channel 1 and property 0, among 1,024 pending ones.
fn look(name: &str, put: impl Fn(&mut Columns, usize)) {
    look_by(Equality::Property, name, put);
}

fn look_by(equality: Equality, name: &str, put: impl Fn(&mut Columns, usize)) {
    let (mut columns, wanted) = (Columns::default(), Wanted { channel: 1, equality, property: 0, unit: 0 });
    for at in 0..1024 {
        columns.channels[at] = 1;
        put(&mut columns, at);
    }
    let run = || _ = black_box(black_box(&columns).oldest_pending(1024, black_box(wanted), &[]));
    let time = nanoseconds(5_000, run);
    println!("a look over 1,024 messages, {name}: {time:.0} ns");
}

fn looks() {
    look("all fit, days 0", |_, _| ());
    look("all fit, equal days", |columns, at| columns.days[at] = 7);
    look("all fit, rising days", |columns, at| columns.days[at] = 1 + at as u32);
    look("all fit, falling days", |columns, at| columns.days[at] = 1024 - at as u32);
    look("all fit, days by chance", |columns, at| columns.days[at] = !(at as u32).wrapping_mul(0x9E37_79B9));
    look("one in eight fits, rising days", |columns, at| {
        (columns.properties[at], columns.days[at]) = (u32::from(at % 8 != 5), 1 + at as u32);
    });
    look("one in sixteen fits, older ones are consumed", |columns, at| {
        (columns.statuses[at], columns.days[at]) =
            if at % 16 == 9 { (0, 5000 + at as u32) } else { (3, 1 + at as u32) };
    });
    look("one in sixteen fits, falling days", |columns, at| {
        (columns.statuses[at], columns.days[at]) = (if at % 16 == 9 { 0 } else { 3 }, 1024 - at as u32);
    });
    look("one fits, the last, all others are consumed", |columns, at| {
        (columns.statuses[at], columns.days[at]) = (if at == 1023 { 0 } else { 3 }, 1 + at as u32);
    });
    look("two fit, the first and the last, older ones are consumed", |columns, at| {
        (columns.statuses[at], columns.days[at]) = if at % 1023 == 0 { (0, 5000) } else { (3, 1 + at as u32) };
    });
    look("one fits, the last", |columns, at| columns.properties[at] = u32::from(at != 1023));
    look("none of the property", |columns, at| columns.properties[at] = 1);
    look("none of the channel", |columns, at| columns.channels[at] = 0);
    look_by(Equality::Any, "all fit, any property, rising days", |columns, at| columns.days[at] = 1 + at as u32);
    looks_by_unit();
}

fn looks_by_unit() {
    let look = |name: &str, put: fn(&mut Columns, usize)| look_by(Equality::Unit, &format!("by unit: {name}"), put);
    look("all fit, days 0", |_, _| ());
    look("all fit, rising days", |columns, at| columns.days[at] = 1 + at as u32);
    look("all fit, falling days", |columns, at| columns.days[at] = 1024 - at as u32);
    look("one in eight fits, rising days", |columns, at| {
        (columns.units[at], columns.days[at]) = (u16::from(at % 8 != 5), 1 + at as u32);
    });
    look("one fits, the last", |columns, at| columns.units[at] = u16::from(at != 1023));
    look("none of the unit", |columns, at| columns.units[at] = 1);
    look("none of the property", |columns, at| columns.properties[at] = 1);
}
