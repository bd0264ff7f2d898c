//! Backoff tables: which pass, before what they are refused, where they stand, and what a sender's steps make of them.

use crate::backoff::{BUILT_IN, Backoff};
use crate::calls::{add, call, close, open, open_with_rests, quiet, replay, reply, step};
use crate::table::Equality::Any;
use crate::table::table_bytes;
use crate::{Answer, Board, Call, Columns, Lists, NUMBERS, Phase, RESTS, Rows, Sent};

/// A leaving channel, and a chord that names it twice.
fn twice() -> Vec<u8> {
    table_bytes(&[0], &[([0, 0], Any)])
}

/// Sevens, but for one entry.
fn with(at: usize, entry: u8) -> [u8; 16] {
    let mut rests = [7; 16];
    rests[at] = entry;
    rests
}

fn opened(rests: &[u8]) -> Result<[u8; 16], u8> {
    open_with_rests(&twice(), rests).map(|board| board.backoff.0)
}

#[test]
fn lengths() {
    for length in (0..40).chain([255, 256, 272, 65_552]) {
        let wanted = if length == 16 { Ok([5; 16]) } else { Err(21) };
        assert_eq!(opened(&vec![5; length]), wanted, "{length}");
    }
    assert_eq!([&BUILT_IN.0[..15], &[BUILT_IN.0.as_slice(), &[32]].concat(), &[]].map(opened), [Err(21); 3]);
}

#[test]
fn entries() {
    assert_eq!([0, 1, 63, 64].map(|all| opened(&[all; 16])), [0, 1, 63, 64].map(|all| Ok([all; 16])));
    assert_eq!([65, 128, 255].map(|all| opened(&[all; 16])), [Err(21); 3]);
    for at in 0..16 {
        let is_first = |wanted: usize| if at == wanted { 0 } else { 21 };
        let number = |entry: u8| opened(&with(at, entry)).err().unwrap_or(0);
        assert_eq!([number(0), number(6), number(7)], [is_first(0), is_first(0), 0], "{at}");
        assert_eq!([number(8), number(64)], [is_first(15); 2], "{at}");
        assert_eq!([number(65), number(255)], [21; 2], "{at}");
    }
    let steep: [u8; 16] = std::array::from_fn(|at| if at < 15 { 0 } else { 64 });
    let rising: [u8; 16] = std::array::from_fn(|at| 4 + 4 * at as u8);
    assert_eq!([steep, rising, BUILT_IN.0].map(|rests| opened(&rests)), [steep, rising, BUILT_IN.0].map(Ok));
}

#[test]
fn the_order_of_an_openings_refusals() {
    let table = table_bytes(&[0, 1], &[([0, 1], Any)]);
    let damaged = [(0, 17, 2), (6, 13, 3), (12, 2, 4), (16, 9, 5), (16, 1, 6), (18, 2, 7)].map(|(at, byte, number)| {
        let mut table = table.clone();
        table[at] = byte;
        (table, number)
    });
    for (table, number) in damaged.into_iter().chain([(vec![0; 11], 1), (table.clone(), 21)]) {
        for rests in [&[][..], &[0; 15], &[0; 17], &[65; 16], &with(15, 6)] {
            assert_eq!(open_with_rests(&table, rests).err(), Some(number));
        }
    }
    assert_eq!([open(&table), open_with_rests(&table, &BUILT_IN.0)], [Ok(Board::default()), Ok(Board::default())]);
}

/// A board on which sender 0 has claimed its message, so that sender 1 tries again and again.
fn contended(mut board: Board) -> Board {
    for sender in [0, 1] {
        add(&twice(), &mut board, sender, Sent::default());
    }
    let said = [(); 3].map(|()| step(&twice(), &mut board, 0));
    assert_eq!(said, [Answer::Looked(0), Answer::Looked(1), Answer::Claimed(0)]);
    board
}

/// How long sender 1 rests after each of its next so many `again`s.
fn waits(board: &mut Board, count: usize) -> Vec<u8> {
    let mut waits = Vec::new();
    while waits.len() <= count {
        match step(&twice(), board, 1) {
            Answer::Again => waits.push(0),
            Answer::Rested => *waits.last_mut().unwrap() += 1,
            answer => assert!([Answer::Looked(1), Answer::Missed].contains(&answer)),
        }
    }
    waits.truncate(count);
    waits
}

#[test]
fn rests_after_each_again() {
    let rising: [u8; 16] = std::array::from_fn(|at| 3 + at as u8);
    for rests in [BUILT_IN.0, rising, [0; 16], [1; 16], [64; 16], with(0, 2), with(15, 64)] {
        let mut board = contended(open_with_rests(&twice(), &rests).unwrap());
        let wanted: Vec<u8> = (0..300).map(|at| rests[at.min(15)]).collect();
        assert_eq!(waits(&mut board, 300), wanted);
        assert_eq!(board.backoff.0, rests);
    }
    assert_eq!(waits(&mut contended(open(&twice()).unwrap()), 16), BUILT_IN.0);
}

/// A new job of the same sender begins with the first entry.
#[test]
fn each_job_anew() {
    let mut board = contended(open_with_rests(&twice(), &with(0, 2)).unwrap());
    assert_eq!(waits(&mut board, 2), [2, 7]);
    while step(&twice(), &mut board, 0) != Answer::Refused(13) {}
    while step(&twice(), &mut board, 1) != Answer::Refused(13) {}
    for sender in [0, 1] {
        assert!(matches!(add(&twice(), &mut board, sender, Sent::default()), Answer::Item(_)));
    }
    let said = [(); 3].map(|()| step(&twice(), &mut board, 0));
    assert_eq!((said[2], board.senders[1].retries), (Answer::Claimed(2), 0));
    let words: Vec<String> = (0..6).map(|_| step(&twice(), &mut board, 1).to_string()).collect();
    assert_eq!(words.join(" / "), "looked 3 / missed / again / rested / rested / looked 3");
}

#[test]
fn tables_of_no_sound_board() {
    let refused = Answer::Refused(30);
    for rests in [[65; 16], [255; 16], with(15, 6), with(1, 6), with(0, 8)] {
        let mut board = Board { backoff: Backoff(rests), ..contended(Board::default()) };
        let found = board.clone();
        assert_eq!([add(&twice(), &mut board, 40, Sent::default()), close(&twice(), &mut board, 0)], [refused; 2]);
        assert_eq!(call(&twice(), &mut board, Call::Step { sender: 1 }), refused);
        assert_eq!(replay(&twice(), &mut board, &Rows::default(), &mut []), Err(30));
        assert_eq!((quiet(&twice(), &board), reply(&twice(), &board, 40)), (Err(30), Err(30)));
        assert_eq!((step(&[], &mut board, 1), board == found), (Answer::Refused(1), true));
    }
}

/// What a sender still has to rest is as it was, whatever the table says now.
#[test]
fn tables_that_a_host_has_set() {
    let mut board = contended(Board::default());
    assert_eq!(waits(&mut board, 3), [0, 1, 1]);
    board.backoff = Backoff([0; 16]);
    assert_eq!([(); 3].map(|()| step(&twice(), &mut board, 1)), [Answer::Rested, Answer::Rested, Answer::Looked(1)]);
    assert_eq!(waits(&mut board, 3), [0; 3]);
    board.backoff = Backoff(with(15, 9));
    assert_eq!(waits(&mut board, 10), [7, 7, 7, 7, 7, 7, 7, 9, 9, 9]);
    board.senders[1].phase = Phase::Backoff(255);
    let words: Vec<Answer> = (0..257).map(|_| step(&twice(), &mut board, 1)).collect();
    assert_eq!((&words[..256], words[256]), (&[Answer::Rested; 256][..], Answer::Looked(1)));
}

#[test]
fn places_in_the_lists() {
    assert_eq!((RESTS, NUMBERS), (707, 723));
    let board = open_with_rests(&twice(), &with(15, 64)).unwrap();
    let lists = Lists::of(&board);
    assert_eq!((&lists.board[706..709], lists.board[722]), (&[0, 7, 7][..], 64));
    assert_eq!(lists.held(Columns::default()), Some(board));
    for (at, number) in [(707, 256), (722, 320), (722, 65_535)] {
        let mut lists = lists.clone();
        lists.board[at] = number;
        assert_eq!(lists.held(Columns::default()), None);
    }
    for length in [707, 722, 724] {
        let mut lists = lists.clone();
        lists.board.resize(length, 64);
        assert_eq!(lists.held(Columns::default()), None);
    }
}
