//! 01's printed run of table P, its edge items, and the numbers and lists of a board.

use crate::board::{CLAIMED, MESSAGES, WOKEN};
use crate::calls::{add, match_, message, open, quiet, replay, reply, step};
use crate::table::table_refusal;
use crate::{Answer, Board, Call, Columns, Lists, Rows, Sent};

const P: &[u8] = &[2, 0, 1, 0, 2, 0, 12, 0, 14, 0, 18, 0, 0, 1, 0, 0, 2, 1, 0, 1];
/// One leave channel, named twice by one chord.
const TWICE: &[u8] = &[1, 0, 1, 0, 2, 0, 12, 0, 13, 0, 17, 0, 0, 0, 0, 2, 0, 0, 0];

fn sent(channel: u16, property: u32, cents: i64) -> Sent {
    Sent { channel, property, cents, ..Sent::default() }
}

fn steps(table: &[u8], board: &mut Board, sender: u16, count: usize) -> String {
    let said: Vec<String> = (0..count).map(|_| step(table, board, sender).to_string()).collect();
    said.join(" / ")
}

#[test]
fn printed_run_of_table_p() {
    let mut board = open(P).unwrap();
    assert_eq!(add(P, &mut board, 0, sent(1, 7, 0)), Answer::Item(0));
    assert_eq!(steps(P, &mut board, 0, 3), "missed / ended / refused 13");
    assert_eq!(add(P, &mut board, 1, sent(0, 7, 5000)), Answer::Item(1));
    assert_eq!(
        steps(P, &mut board, 1, 7),
        "looked 1 / looked 0 / claimed 1 / claimed 0 / woke 0 / freed 1 / signalled 0"
    );
    assert_eq!(
        steps(P, &mut board, 0, 8),
        "resumed / looked 1 / looked 0 / claimed 1 / matched 0 / consumed 1 / consumed 0 / refused 13"
    );
    let read = match_(P, &board, 0).unwrap();
    assert_eq!((read.chord, read.len, read.cents, &read.messages[..2]), (0, 2, 5000, &[1, 0][..]));
    assert_eq!((reply(P, &board, 0), reply(P, &board, 1)), (Ok(Some(0)), Ok(None)));
    assert_eq!(quiet(P, &board), Ok(true));
}

#[test]
fn tables_refused() {
    assert_eq!(table_refusal(P), 0);
    assert_eq!(table_refusal(&P[..19]), 3);
    assert_eq!(table_refusal(&P[..11]), 1);
    let changed = |at: usize, byte: u8| {
        let mut table = P.to_vec();
        table[at] = byte;
        table_refusal(&table)
    };
    assert_eq!(changed(0, 17), 2);
    assert_eq!(changed(12, 2), 4);
    assert_eq!(changed(16, 9), 5);
    assert_eq!(changed(16, 1), 6);
    assert_eq!([0, 1, 2, 3, 4, 255].map(|byte| changed(17, byte)), [0, 0, 0, 5, 5, 5]);
    assert_eq!(changed(19, 2), 7);
    assert_eq!(table_refusal(&[1, 0, 0, 0, 0, 0, 12, 0, 13, 0, 13, 0, 1]), 0);
}

#[test]
fn edge_items() {
    let mut board = open(P).unwrap();
    add(P, &mut board, 0, sent(1, 7, 0));
    steps(P, &mut board, 0, 2);
    assert_eq!(add(P, &mut board, 1, sent(0, 8, 999_999_999_999)), Answer::Item(1));
    assert_eq!(steps(P, &mut board, 1, 3), "looked 1 / missed / ended");
    assert_eq!(add(P, &mut board, 1, sent(0, 8, 1_000_000_000_000)), Answer::Refused(11));
    assert_eq!(add(P, &mut board, 1, sent(2, 8, 0)), Answer::Refused(10));
    assert_eq!(add(P, &mut board, 0, sent(0, 8, 0)), Answer::Refused(9));
    assert_eq!(step(P, &mut board, 32), Answer::Refused(8));
}

#[test]
fn a_chord_naming_a_channel_twice() {
    let mut board = open(TWICE).unwrap();
    add(TWICE, &mut board, 0, sent(0, 1, 5));
    assert_eq!(steps(TWICE, &mut board, 0, 3), "looked 0 / missed / ended");
    add(TWICE, &mut board, 0, sent(0, 2, 6));
    assert_eq!(
        steps(TWICE, &mut board, 0, 7),
        "looked 1 / looked 0 / claimed 1 / matched 0 / consumed 1 / consumed 0 / refused 13"
    );
}

/// One leave channel; messages of the days, then one more of day 50 whose look is answered.
fn looked(days: &[u32]) -> Answer {
    let mut board = open(TWICE).unwrap();
    for (sender, &day) in (1..).zip(days) {
        add(TWICE, &mut board, sender, Sent { day, ..sent(0, 0, 0) });
    }
    add(TWICE, &mut board, 0, Sent { day: 50, ..sent(0, 0, 0) });
    assert_eq!(step(TWICE, &mut board, 0), Answer::Looked(days.len() as u16));
    step(TWICE, &mut board, 0)
}

#[test]
fn the_oldest_is_looked_up() {
    assert_eq!(looked(&[30, 20, 40]), Answer::Looked(1));
    assert_eq!(looked(&[30, 20, 20]), Answer::Looked(1));
    assert_eq!(looked(&[30, 20, 0, 0]), Answer::Looked(2));
    assert_eq!(looked(&[60, 70]), Answer::Looked(0));
    assert_eq!(looked(&[u32::MAX, u32::MAX]), Answer::Looked(0));
    assert_eq!(looked(&[u32::MAX, u32::MAX - 1]), Answer::Looked(1));
    assert_eq!(looked(&[]), Answer::Missed);
}

#[test]
fn a_full_board() {
    let mut board = open(TWICE).unwrap();
    (board.messages, board.counts) = (MESSAGES as u16 - 1, [32; 32]);
    board.counts[3] = 31;
    assert_eq!(add(TWICE, &mut board, 3, sent(0, 0, 0)), Answer::Item(1023));
    assert_eq!(add(TWICE, &mut board, 4, sent(0, 0, 0)), Answer::Refused(26));
    board.messages = MESSAGES as u16 + 1;
    assert_eq!(add(TWICE, &mut board, 4, sent(0, 0, 0)), Answer::Refused(30));
}

#[test]
fn a_lost_claim_is_tried_again() {
    let mut board = open(TWICE).unwrap();
    add(TWICE, &mut board, 0, sent(0, 0, 0));
    add(TWICE, &mut board, 1, sent(0, 0, 0));
    assert_eq!(steps(TWICE, &mut board, 0, 3), "looked 0 / looked 1 / claimed 0");
    assert_eq!(steps(TWICE, &mut board, 1, 4), "looked 1 / missed / again / looked 1");
    assert_eq!(steps(TWICE, &mut board, 1, 3), "missed / again / rested");
    assert_eq!(steps(TWICE, &mut board, 0, 1), "matched 0");
}

#[test]
fn numbers_and_back() {
    let mut board = open(P).unwrap();
    add(P, &mut board, 0, sent(1, 7, 0));
    steps(P, &mut board, 0, 2);
    add(P, &mut board, 1, sent(0, 7, 5000));
    for _ in 0..16 {
        assert_eq!(Board::from_numbers(&board.to_numbers(), 9, board.columns.clone()), Some(board.clone()));
        let sender = board.first_busy().unwrap_or(0);
        step(P, &mut board, sender);
    }
    let mut numbers = board.to_numbers();
    numbers[2] = 3;
    assert_eq!(Board::from_numbers(&numbers, 9, board.columns.clone()), None);
}

#[test]
fn lists_and_back() {
    let mut board = open(P).unwrap();
    add(P, &mut board, 0, sent(1, 7, 0));
    steps(P, &mut board, 0, 2);
    add(P, &mut board, 1, Sent { day: u32::MAX, unit: u16::MAX, ..sent(0, 7, 5000) });
    for _ in 0..16 {
        assert_eq!(Lists::of(&board).held(Columns::default()), Some(board.clone()));
        let sender = board.first_busy().unwrap_or(0);
        step(P, &mut board, sender);
    }
    let lists = Lists::of(&board);
    assert_eq!(
        (lists.bytes[..2].to_vec(), lists.bytes[1024..1026].to_vec(), lists.bytes[2048]),
        (vec![1, 0], vec![3, 3], 0)
    );
    assert_eq!((lists.links[..2].to_vec(), lists.links[1024..1026].to_vec()), (vec![1, 1], vec![2, 0]));
    assert_eq!(
        (lists.links[2048..2050].to_vec(), &lists.keys[..2], &lists.cents[..2]),
        (vec![1, 0], &[7, 7][..], &[0, 5000][..])
    );
    assert_eq!((&lists.keys[1024..1026], &lists.links[10_240..10_242]), (&[0, u32::MAX][..], &[0, u16::MAX][..]));
    assert_eq!(message(P, &board, 1).map(|read| (read.day, read.unit)), Ok((u32::MAX, u16::MAX)));
    for list in 0..5 {
        let mut other = lists.clone();
        match list {
            0 => other.board.push(0),
            1 => other.bytes.truncate(3071),
            2 => other.links.truncate(10_240),
            3 => other.keys.truncate(2048),
            _ => other.cents.truncate(1),
        }
        assert_eq!(other.held(Columns::default()), None);
    }
}

#[test]
fn replays() {
    let calls = [Call::Add { sender: 0, sent: Sent { day: 9, unit: 3, ..sent(1, 7, -5) } }, Call::Step { sender: 0 }];
    let (mut board, mut answers) = (open(P).unwrap(), [9; 3]);
    let mut rows = Rows::of(&calls);
    assert_eq!((rows.calls.clone(), rows.numbers.clone()), (vec![1, 0, 1, 3, 0, 0, 0, 0], vec![7, 9, 0, 0]));
    assert_eq!(replay(P, &mut board, &rows, &mut answers[..1]), Err(31));
    assert_eq!((board.messages, answers), (0, [9; 3]));
    rows.calls[0] = 65_535;
    assert_eq!(replay(P, &mut board, &rows, &mut answers), Ok(()));
    let Columns { cents, days, units, .. } = &board.columns;
    assert_eq!((answers, cents[0], days[0], units[0]), ([0, 2 << 16, 9], -5, 9, 3));
    rows.numbers.push(0);
    assert_eq!(replay(P, &mut board, &rows, &mut []), Err(30));
    rows.amounts.push(0);
    rows.calls.extend([0; 3]);
    assert_eq!(replay(P, &mut board, &rows, &mut []), Err(30));
    rows.calls.push(0);
    assert_eq!(replay(P, &mut board, &rows, &mut []), Err(30));
    rows.numbers.push(0);
    assert_eq!(replay(P, &mut board, &rows, &mut []), Err(31));
}

#[test]
fn unsound_boards() {
    let mut board = open(P).unwrap();
    add(P, &mut board, 0, sent(1, 7, 0));
    for (status, fine) in [(CLAIMED, true), (WOKEN, false), (4, false)] {
        board.columns.statuses[0] = status;
        assert_eq!(quiet(P, &board).is_ok(), fine);
    }
}
