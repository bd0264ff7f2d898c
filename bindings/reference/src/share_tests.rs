//! Each sender's own messages and the common ones: which adds are refused and before what, what counts, and which
//! counts are a sound board's.

use crate::board::MOST_CENTS;
use crate::calls::{add, close, open, quiet, replay, step};
use crate::table::Equality::Any;
use crate::table::table_bytes;
use crate::{Answer, Board, COUNTS, Call, Columns, Lists, NUMBERS, Rows, Sent};

const USED_UP: Answer = Answer::Refused(26);

/// A leaving and a waiting channel, and a chord of two of the first.
fn twice() -> Vec<u8> {
    table_bytes(&[0, 1], &[([0, 0], Any)])
}

/// Adds of a sender, each stepped to its end, until one is refused; how many are accepted.
fn fill(board: &mut Board, sender: u16) -> u16 {
    let (table, before) = (twice(), board.messages);
    while let Answer::Item(_) = add(&table, board, sender, Sent::default()) {
        while step(&table, board, sender) != Answer::Refused(13) {}
    }
    board.messages - before
}

/// A quiet board on which the senders have added so many.
fn counted(counts: &[u16]) -> Board {
    let mut board = Board { messages: counts.iter().sum(), ..Board::default() };
    board.counts[..counts.len()].copy_from_slice(counts);
    board
}

/// What adds of these senders answer, each on a board of its own.
fn added<const N: usize>(board: &Board, senders: [u16; N]) -> [Answer; N] {
    senders.map(|sender| add(&twice(), &mut board.clone(), sender, Sent::default()))
}

#[test]
fn one_sender_alone_and_the_others() {
    let mut board = Board::default();
    assert_eq!((fill(&mut board, 7), board.matches), (528, 264));
    assert_eq!(added(&board, [7, 6, 31]), [USED_UP, Answer::Item(528), Answer::Item(528)]);
    for sender in (0..32).filter(|&sender| sender != 7) {
        assert_eq!(fill(&mut board, sender), 16);
    }
    assert_eq!((board.messages, board.matches), (1024, 512));
    (0..32).for_each(|sender| assert_eq!(added(&board, [sender]), [USED_UP]));
    assert_eq!((board.counts[7], board.counts[6], board.common_used()), (528, 16, 512));
}

#[test]
fn the_first_16_and_those_past_them() {
    assert_eq!(added(&counted(&[16, 15, 528]), [0, 1, 2, 3]), [USED_UP, Answer::Item(559), USED_UP, Answer::Item(559)]);
    assert_eq!(added(&counted(&[16, 15, 527]), [0, 1, 2]), [Answer::Item(558); 3]);
    assert_eq!(added(&counted(&[17, 0, 527]), [0, 1, 2]), [USED_UP, Answer::Item(544), USED_UP]);
    assert_eq!(added(&counted(&[16; 32]), [0, 31]), [Answer::Item(512); 2]);
    assert_eq!(added(&counted(&[16; 31]), [0, 31]), [Answer::Item(496); 2]);
}

#[test]
fn a_full_board_is_of_all_senders() {
    let moved = |by: u16| {
        let mut board = counted(&[32; 32]);
        (board.counts[5], board.counts[9]) = (32 - by, 32 + by);
        (board.messages, added(&board, [5]))
    };
    assert_eq!([0, 1, 16].map(moved), [(1024, [USED_UP]); 3]);
    assert_eq!([17, 32].map(moved), [(1024, [Answer::Refused(30)]); 2]);
}

/// A sender without any left, at work and then not, and an add of which everything is wrong, mended one by one.
#[test]
fn the_order_of_an_adds_refusals() {
    let (table, mut board) = (twice(), counted(&[527]));
    assert_eq!(add(&table, &mut board, 0, Sent::default()), Answer::Item(527));
    close(&table, &mut board, 30);
    let wrong = Sent { channel: 2, cents: MOST_CENTS + 1, day: 30, ..Sent::default() };
    assert_eq!(add(&table, &mut board, 32, wrong), Answer::Refused(8));
    assert_eq!(add(&table, &mut board, 0, wrong), Answer::Refused(9));
    while step(&table, &mut board, 0) != Answer::Refused(13) {}
    let of_channel = Sent { channel: 0, ..wrong };
    let of_open_day = Sent { day: 31, ..of_channel };
    let cases = [(wrong, 10), (of_channel, 19), (of_open_day, 11), (Sent { cents: 0, ..of_open_day }, 26)];
    for (sent, number) in cases {
        let found = board.clone();
        assert_eq!(add(&table, &mut board, 0, sent), Answer::Refused(number));
        assert_eq!(board, found);
    }
}

#[test]
fn accepted_adds_count_and_nothing_else_does() {
    let (table, mut board) = (twice(), open(&twice()).unwrap());
    assert_eq!(board.counts, [0; 32]);
    for sender in [3, 4, 3] {
        let mut wanted = board.counts;
        assert_eq!(add(&table, &mut board, sender, Sent { channel: 2, ..Sent::default() }), Answer::Refused(10));
        assert_eq!(board.counts, wanted);
        assert!(matches!(add(&table, &mut board, sender, Sent::default()), Answer::Item(_)));
        wanted[usize::from(sender)] += 1;
        close(&table, &mut board, 0);
        assert_eq!(add(&table, &mut board, sender, Sent::default()), Answer::Refused(9));
        while step(&table, &mut board, sender) != Answer::Refused(13) {}
        assert_eq!(add(&table, &mut board, sender, Sent::default()), Answer::Refused(19));
        assert_eq!(board.counts, wanted);
        board.close_day = None;
    }
    assert_eq!((board.messages, board.matches, board.counts[3], board.counts[4]), (3, 1, 2, 1));
}

#[test]
fn sums_are_exact() {
    let judged = |messages: u16, counts: &[u16]| {
        let mut board = Board { messages, ..Board::default() };
        board.counts[..counts.len()].copy_from_slice(counts);
        quiet(&twice(), &board).is_ok()
    };
    assert_eq!([4, 5, 6].map(|messages| judged(messages, &[2, 3])), [false, true, false]);
    assert_eq!([(0, 65_535, 1), (5, 32_768, 32_773)].map(|(sum, one, two)| judged(sum, &[one, two])), [false; 2]);
    assert_eq!([0, 512].map(|sum| judged(sum, &[2048; 32])), [false; 2]);
    assert_eq!([0, 1024, 65_504].map(|sum| judged(sum, &[65_535; 32])), [false; 3]);
    assert_eq!([(528, true), (529, false), (1024, false)].map(|(sum, fine)| judged(sum, &[sum]) == fine), [true; 3]);
    assert_eq!([272, 273].map(|count| judged(272 + count, &[272, count])), [true, false]);
    assert_eq!([32, 33].map(|count| judged(31 * count, &[count; 31])), [true, false]);
}

#[test]
fn places_in_the_lists() {
    assert_eq!((COUNTS, NUMBERS), (675, 723));
    let mut board = counted(&[2, 0, 5]);
    board.counts[31] = 65_535;
    let lists = Lists::of(&board);
    assert_eq!((&lists.board[675..679], lists.board[706]), (&[2, 0, 5, 0][..], 65_535));
    assert_eq!(lists.held(Columns::default()), Some(board));
    for length in [675, 706, 707] {
        let mut lists = lists.clone();
        lists.board.resize(length, 0);
        assert_eq!(lists.held(Columns::default()), None);
    }
}

#[test]
fn replayed() {
    let add = |sender: u16| Call::Add { sender, sent: Sent { channel: 1, ..Sent::default() } };
    let calls: Vec<Call> = [5, 4, 3, 2].map(|sender| [add(sender), Call::Step { sender }]).concat();
    let (mut board, mut answers) = (counted(&[0, 0, 15, 16, 272, 271]), [9; 8]);
    assert_eq!(replay(&twice(), &mut board, &Rows::of(&calls), &mut answers), Ok(()));
    let adds: Vec<u32> = answers.into_iter().step_by(2).collect();
    assert_eq!(adds, [574, USED_UP.number(), USED_UP.number(), 575]);
    assert_eq!((&board.counts[2..6], board.messages), (&[16, 16, 272, 272][..], 576));
}
