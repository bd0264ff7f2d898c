//! Chords that want equal units: what a look takes and passes over, what marks a retry, what a quiet board leaves.

use crate::board::{MESSAGES, MOST_CENTS};
use crate::calls::{add, match_, message, open, quiet, step};
use crate::table::Equality::{self, Any, Property, Unit};
use crate::table::table_bytes;
use crate::{Answer, Board, Lists, Sent};

/// One leaving channel, named twice by a chord.
fn twice(equality: Equality) -> Vec<u8> {
    table_bytes(&[0], &[([0, 0], equality)])
}

fn sent((property, unit): (u32, u16)) -> Sent {
    Sent { property, unit, ..Sent::default() }
}

/// What the look of the last message's sender finds among the messages before it.
fn looked_of(equality: Equality, messages: &[Sent]) -> Answer {
    let (table, mut board) = (twice(equality), Board::default());
    for (sender, &sent) in (0..).zip(messages) {
        add(&table, &mut board, sender, sent);
    }
    let last = messages.len() as u16 - 1;
    assert_eq!(step(&table, &mut board, last), Answer::Looked(last));
    step(&table, &mut board, last)
}

fn looked(equality: Equality, messages: &[(u32, u16)]) -> Answer {
    looked_of(equality, &messages.iter().copied().map(sent).collect::<Vec<_>>())
}

#[test]
fn another_unit() {
    for (units, alike) in [([1, 2], false), ([0, u16::MAX], false), ([1, 257], false), ([0, 0], true)] {
        let messages = units.map(|unit| (7, unit));
        assert_eq!(looked(Unit, &messages), if alike { Answer::Looked(0) } else { Answer::Missed });
        assert_eq!(looked(Property, &messages), Answer::Looked(0));
        assert_eq!(looked(Any, &messages), Answer::Looked(0));
    }
    assert_eq!(looked(Unit, &[(7, u16::MAX), (7, u16::MAX)]), Answer::Looked(0));
}

#[test]
fn another_property_of_the_unit() {
    assert_eq!(looked(Unit, &[(7, 1), (8, 1)]), Answer::Missed);
    assert_eq!(looked(Property, &[(7, 1), (8, 1)]), Answer::Missed);
    assert_eq!(looked(Any, &[(7, 1), (8, 2)]), Answer::Looked(0));
}

#[test]
fn passed_over() {
    assert_eq!(looked(Unit, &[(7, 1), (8, 2), (7, 2), (7, 2)]), Answer::Looked(2));
    assert_eq!(looked(Property, &[(7, 1), (8, 2), (7, 2), (7, 2)]), Answer::Looked(0));
    assert_eq!(looked(Property, &[(8, 2), (7, 1), (7, 2), (7, 2)]), Answer::Looked(1));
}

#[test]
fn the_oldest_of_the_unit() {
    let messages = [(1, 10), (2, 40), (2, 30), (2, 30), (2, 50)].map(|(unit, day)| Sent { day, ..sent((7, unit)) });
    assert_eq!(looked_of(Unit, &messages), Answer::Looked(2));
    assert_eq!(looked_of(Property, &messages), Answer::Looked(0));
}

/// Two messages of unit 1 that are claimed; then a message of that unit, what its sender says to two steps, and
/// whether it has the mark then.
fn beside_a_claim(equality: Equality, unit: u16) -> ([Answer; 2], bool) {
    let (table, mut board) = (twice(equality), Board::default());
    for sender in [0, 1] {
        add(&table, &mut board, sender, sent((7, 1)));
    }
    let said = [(); 4].map(|()| step(&table, &mut board, 0));
    assert_eq!(said[2..], [Answer::Claimed(0), Answer::Matched(0)]);
    add(&table, &mut board, 2, sent((7, unit)));
    let said = [(); 2].map(|()| step(&table, &mut board, 2));
    (said, board.senders[2].retry)
}

#[test]
fn a_claimed_one_marks_a_retry_if_it_would_fit() {
    let missed = [Answer::Looked(2), Answer::Missed];
    assert_eq!(beside_a_claim(Unit, 1), (missed, true));
    assert_eq!(beside_a_claim(Unit, 2), (missed, false));
    assert_eq!(beside_a_claim(Property, 2), (missed, true));
    assert_eq!(beside_a_claim(Any, 2), (missed, true));
}

#[test]
fn what_a_quiet_board_leaves() {
    let (table, mut board) = (twice(Unit), Board::default());
    for unit in [3, 5, 3] {
        add(&table, &mut board, 0, sent((7, unit)));
        while step(&table, &mut board, 0) != Answer::Refused(13) {}
    }
    assert_eq!((board.messages, board.matches, quiet(&table, &board)), (3, 1, Ok(true)));
    assert_eq!(match_(&table, &board, 0).map(|read| read.messages[..2].to_vec()), Ok(vec![2, 0]));
    assert_eq!(message(&table, &board, 1).map(|read| (read.unit, read.status)), Ok((5, 0)));
}

#[test]
fn the_units_of_records() {
    let (table, mut board) = (twice(Unit), open(&twice(Unit)).unwrap());
    board.columns.units.fill(9);
    assert_eq!(add(&table, &mut board, 0, Sent { cents: MOST_CENTS + 1, ..sent((7, 4)) }), Answer::Refused(11));
    assert_eq!(board.columns.units[..], [9; MESSAGES]);
    add(&table, &mut board, 0, sent((7, 4)));
    step(&table, &mut board, 0);
    assert_eq!((board.columns.units[0], &board.columns.units[1..]), (4, &[9; MESSAGES - 1][..]));
    let lists = Lists::of(&board);
    assert_eq!((lists.links.len(), lists.links[10_239..10_242].to_vec()), (11_264, vec![0, 4, 9]));
}
