//! Closed books: which adds are refused and before what, which closes are, and what a close leaves as it was.

use crate::board::{MESSAGES, MOST_CENTS};
use crate::calls::{add, close, match_, quiet, replay, step};
use crate::lists::{CLOSE_DAY, KEYS};
use crate::table::Equality::Any;
use crate::table::table_bytes;
use crate::{Answer, Board, Call, Columns, HAS_CLOSE, Lists, NUMBERS, Rows, Sent};

/// One leaving channel, named twice by a chord.
fn twice() -> Vec<u8> {
    table_bytes(&[0], &[([0, 0], Any)])
}

fn of(day: u32) -> Sent {
    Sent { day, ..Sent::default() }
}

fn closed(day: u32) -> Board {
    let mut board = Board::default();
    assert_eq!(close(&twice(), &mut board, day), Answer::Closed);
    board
}

/// What adds of these days answer, each on a board of its own.
fn added<const N: usize>(board: &Board, days: [u32; N]) -> [Answer; N] {
    days.map(|day| add(&twice(), &mut board.clone(), 0, of(day)))
}

#[test]
fn the_close_day_and_the_days_before_it() {
    let (refused, taken) = (Answer::Refused(19), Answer::Item(0));
    assert_eq!(added(&closed(30), [0, 29, 30, 31, u32::MAX]), [refused, refused, refused, taken, taken]);
    assert_eq!(added(&closed(u32::MAX - 1), [0, u32::MAX - 1, u32::MAX]), [refused, refused, taken]);
    assert_eq!(added(&closed(u32::MAX), [0, 30, u32::MAX - 1, u32::MAX]), [refused; 4]);
}

#[test]
fn day_0_closed_is_not_none_closed() {
    assert_eq!(Board::default().close_day, None);
    assert_eq!(added(&Board::default(), [0, 1, u32::MAX]), [Answer::Item(0); 3]);
    assert_eq!(closed(0).close_day, Some(0));
    assert_eq!(added(&closed(0), [0, 1, u32::MAX]), [Answer::Refused(19), Answer::Item(0), Answer::Item(0)]);
}

/// A full board with sender 0 at work, and an add of which everything is wrong, mended one by one.
#[test]
fn the_order_of_an_adds_refusals() {
    let (table, mut board) = (twice(), closed(30));
    assert_eq!(add(&table, &mut board, 0, of(31)), Answer::Item(0));
    (board.messages, board.counts) = (MESSAGES as u16, [32; 32]);
    let wrong = Sent { channel: 1, cents: MOST_CENTS + 1, ..of(30) };
    let of_channel = Sent { channel: 0, ..wrong };
    let cases = [
        (32, wrong, 8),
        (0, wrong, 9),
        (1, wrong, 10),
        (1, of_channel, 19),
        (1, of(30), 19),
        (1, Sent { day: 31, ..of_channel }, 11),
        (1, of(31), 26),
    ];
    for (sender, sent, number) in cases {
        let found = board.clone();
        assert_eq!(add(&table, &mut board, sender, sent), Answer::Refused(number));
        assert_eq!(board, found);
    }
    board.messages += 1;
    assert_eq!(add(&table, &mut board, 1, of_channel), Answer::Refused(30));
    assert_eq!(add(&table[..11], &mut board, 1, of_channel), Answer::Refused(1));
}

#[test]
fn an_earlier_close_day_is_refused_and_an_equal_one_is_not() {
    let (table, mut board) = (twice(), Board::default());
    let mut said = |days: [u32; 4]| days.map(|day| close(&table, &mut board, day));
    let (refused, accepted) = (Answer::Refused(20), Answer::Closed);
    assert_eq!(said([0, 0, 30, 30]), [accepted; 4]);
    assert_eq!(said([29, 0, 31, 30]), [refused, refused, accepted, refused]);
    assert_eq!(said([u32::MAX, u32::MAX - 1, 0, u32::MAX]), [accepted, refused, refused, accepted]);
    assert_eq!(board.close_day, Some(u32::MAX));
}

#[test]
fn what_a_close_is_refused_for_first() {
    let (table, mut board) = (twice(), closed(30));
    assert_eq!(close(&table[..11], &mut board, 29), Answer::Refused(1));
    board.messages = MESSAGES as u16 + 1;
    assert_eq!(close(&table[..11], &mut board, 29), Answer::Refused(1));
    assert_eq!([29, 30, 31].map(|day| close(&table, &mut board, day)), [Answer::Refused(30); 3]);
    assert_eq!(board.close_day, Some(30));
}

#[test]
fn messages_of_closed_days_match_on() {
    for close_day in [20, 30, u32::MAX] {
        let (table, mut board) = (twice(), Board::default());
        for (sender, day) in [(0, 30), (1, 20)] {
            add(&table, &mut board, sender, of(day));
        }
        assert_eq!(step(&table, &mut board, 0), Answer::Looked(0));
        assert_eq!(close(&table, &mut board, close_day), Answer::Closed);
        let said = [(); 3].map(|()| step(&table, &mut board, 0));
        assert_eq!(said, [Answer::Looked(1), Answer::Claimed(0), Answer::Matched(0)]);
        while let Some(sender) = board.first_busy() {
            step(&table, &mut board, sender);
        }
        assert_eq!(match_(&table, &board, 0).map(|read| read.messages[..2].to_vec()), Ok(vec![0, 1]));
        assert_eq!((quiet(&table, &board), board.close_day), (Ok(true), Some(close_day)));
    }
}

/// The oldest is taken first, its day closed or not.
#[test]
fn a_message_of_a_closed_day_is_taken_by_a_later_one() {
    let (table, mut board) = (twice(), Board::default());
    add(&table, &mut board, 0, of(30));
    while step(&table, &mut board, 0) != Answer::Refused(13) {}
    close(&table, &mut board, 30);
    assert_eq!(add(&table, &mut board, 1, of(31)), Answer::Item(1));
    assert_eq!([(); 2].map(|()| step(&table, &mut board, 1)), [Answer::Looked(1), Answer::Looked(0)]);
}

/// A rendezvous, on whose way there are jobs, a claim, a match, a blocked sender and a signal. Beside every board
/// stands one with a close day.
#[test]
fn a_close_alters_nothing_else_and_no_step_looks_at_it() {
    let (table, mut board) = (table_bytes(&[0, 1], &[([0, 1], Any)]), Board::default());
    let with_close = |board: &Board| Board { close_day: Some(30), ..board.clone() };
    add(&table, &mut board, 0, Sent { channel: 1, ..of(3) });
    while step(&table, &mut board, 0) != Answer::Refused(13) {}
    add(&table, &mut board, 1, of(4));
    let (mut signals, mut steps) = (0, 0);
    while let Some(sender) = board.first_busy() {
        let mut beside = board.clone();
        assert_eq!(close(&table, &mut beside, 30), Answer::Closed);
        assert_eq!(beside, with_close(&board));
        assert_eq!(close(&table, &mut beside, 29), Answer::Refused(20));
        assert_eq!(beside, with_close(&board));
        signals += board.senders.iter().filter(|sender| sender.signalled).count();
        assert_eq!(step(&table, &mut beside, sender), step(&table, &mut board, sender));
        assert_eq!(beside, with_close(&board));
        steps += 1;
    }
    assert_eq!((steps, signals, board.matches), (14, 1, 1));
}

#[test]
fn places_in_the_lists() {
    assert_eq!((NUMBERS, HAS_CLOSE, KEYS, CLOSE_DAY), (723, 674, 2049, 2048));
    let (table, mut lists) = (twice(), Lists::default());
    lists.keys[CLOSE_DAY] = 77;
    let mut board = lists.held(Columns::default()).unwrap();
    assert_eq!((board.close_day, add(&table, &mut board, 0, of(0))), (None, Answer::Item(0)));
    lists.hold(&board);
    assert_eq!((lists.board[HAS_CLOSE], lists.keys[CLOSE_DAY]), (0, 77));
    for day in [0, 30, u32::MAX] {
        close(&table, &mut board, day);
        lists.hold(&board);
        assert_eq!((lists.board[HAS_CLOSE], lists.keys[CLOSE_DAY]), (1, day));
        assert_eq!(lists.held(Columns::default()), Some(board.clone()));
    }
    for flag in [2, 3, 256, u16::MAX] {
        lists.board[HAS_CLOSE] = flag;
        assert_eq!(lists.held(Columns::default()), None);
    }
    lists.board[HAS_CLOSE] = 0;
    assert_eq!(lists.held(Columns::default()).map(|board| board.close_day), Some(None));
}

#[test]
fn lists_without_the_places_of_a_close() {
    for (board, keys) in [(674, 2049), (NUMBERS, 2048), (674, 2048), (NUMBERS, 2050)] {
        let mut lists = Lists::of(&closed(30));
        lists.board.resize(board, 0);
        lists.keys.resize(keys, 0);
        assert_eq!(lists.held(Columns::default()), None);
    }
}

#[test]
fn replayed_closes() {
    let add = |day: u32| Call::Add { sender: 0, sent: of(day) };
    let calls = [Call::Close { day: 30 }, add(30), add(31), Call::Close { day: 29 }, Call::Step { sender: 0 }];
    let (table, mut board, mut rows) = (twice(), Board::default(), Rows::of(&calls));
    assert_eq!((&rows.calls[..4], &rows.numbers[..2]), (&[2, 0, 0, 0][..], &[0, 30][..]));
    // Of a close's row nothing is read but the day; a kind of 3 is an add.
    (rows.numbers[0], rows.amounts[0], rows.calls[8]) = (9, i64::MIN, 3);
    rows.calls[1..4].fill(u16::MAX);
    let mut answers = [9; 6];
    assert_eq!(replay(&table, &mut board, &rows, &mut answers), Ok(()));
    assert_eq!(answers, [18 << 16, 17 << 16 | 19, 0, 17 << 16 | 20, 1 << 16, 9]);
    assert_eq!((board.close_day, board.messages), (Some(30), 1));
}
