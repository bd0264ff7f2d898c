//! Closed books: which adds and closes are refused, by single calls and by a replay, and what a close leaves.

use gevnyusto::host::{self, Lists, Replay};
use gevnyusto::{Answer, Call, Matcher, Refusal};

/// Two channels that leave; a chord of both, with equal property numbers.
const RENTS: [u8; 20] = [2, 0, 1, 0, 2, 0, 12, 0, 14, 0, 18, 0, 0, 0, 0, 0, 2, 1, 0, 1];
const CLOSED: u32 = 18 << 16;

fn refused(number: u32) -> u32 {
    17 << 16 | number
}

fn closed(day: u32) -> Matcher {
    let mut matcher = Matcher::open(RENTS).unwrap();
    assert_eq!((matcher.close_day(), matcher.close(day)), (None, Ok(Answer::Closed)));
    assert_eq!(matcher.close_day(), Some(day));
    matcher
}

/// What adds of these days say, each on a board of its own.
fn added<const N: usize>(matcher: &Matcher, days: [u32; N]) -> [Result<Answer, Refusal>; N] {
    days.map(|day| matcher.clone().add(0, 0, 7, 5000, day, 0))
}

#[test]
fn days_that_are_closed() {
    let (closed_day, taken) = (Err(Refusal::DayClosed), Ok(Answer::Item(0)));
    assert_eq!(added(&Matcher::open(RENTS).unwrap(), [0, 1, u32::MAX]), [taken; 3]);
    assert_eq!(added(&closed(0), [0, 1, u32::MAX]), [closed_day, taken, taken]);
    assert_eq!(added(&closed(30), [0, 29, 30, 31]), [closed_day, closed_day, closed_day, taken]);
    assert_eq!(added(&closed(u32::MAX), [0, 30, u32::MAX - 1, u32::MAX]), [closed_day; 4]);
}

#[test]
fn close_days_that_are_refused() {
    let mut matcher = closed(30);
    for day in [0, 29] {
        assert_eq!(matcher.close(day), Err(Refusal::EarlierCloseDay));
    }
    for day in [30, 31, u32::MAX, u32::MAX] {
        assert_eq!(matcher.close(day), Ok(Answer::Closed));
    }
    assert_eq!((matcher.close(u32::MAX - 1), matcher.close_day()), (Err(Refusal::EarlierCloseDay), Some(u32::MAX)));
    assert_eq!((Refusal::DayClosed.number(), Refusal::EarlierCloseDay.number()), (19, 20));
    assert_eq!(Answer::Closed.to_string(), "closed");
}

#[test]
fn the_order_of_refusals() {
    let mut matcher = closed(30);
    matcher.add(0, 0, 7, 5000, 31, 0).unwrap();
    let wild = i64::MAX;
    assert_eq!(matcher.add(32, 2, 7, wild, 30, 0), Err(Refusal::NoSuchSender));
    assert_eq!(matcher.add(0, 2, 7, wild, 30, 0), Err(Refusal::SenderNotIdle));
    assert_eq!(matcher.add(1, 2, 7, wild, 30, 0), Err(Refusal::NoSuchChannel));
    assert_eq!(matcher.add(1, 0, 7, wild, 30, 0), Err(Refusal::DayClosed));
    assert_eq!(matcher.add(1, 0, 7, wild, 31, 0), Err(Refusal::CentsOutOfRange));
    while matcher.step(0).is_ok() {}
    while matcher.add(0, 0, 7, 0, 31, 0).is_ok() {
        while matcher.step(0).is_ok() {}
    }
    assert_eq!(matcher.add(0, 0, 7, 0, 30, 0), Err(Refusal::DayClosed));
    assert_eq!(matcher.add(0, 0, 7, wild, 31, 0), Err(Refusal::CentsOutOfRange));
    assert_eq!(matcher.add(0, 0, 7, 0, 31, 0), Err(Refusal::ShareUsedUp));
}

#[test]
fn messages_on_the_board_match_on() {
    let mut matcher = Matcher::open(RENTS).unwrap();
    matcher.add(0, 0, 7, -5000, 30, 0).unwrap();
    matcher.add(1, 1, 7, 5000, 30, 0).unwrap();
    assert_eq!(matcher.close(u32::MAX), Ok(Answer::Closed));
    while matcher.step(0).is_ok() || matcher.step(1).is_ok() {}
    assert_eq!((matcher.counts(), matcher.quiet()), ((2, 1), Ok(true)));
    assert_eq!(matcher.match_(0).unwrap().messages, [0, 1]);
}

#[test]
fn replayed() {
    let add = |day: u32| Call::Add { sender: 0, channel: 0, property: 7, cents: 0, day, unit: 0 };
    let calls = [Call::Close { day: 30 }, add(30), Call::Close { day: 29 }, add(31), Call::Step { sender: 0 }];
    let said = [
        Ok(Answer::Closed),
        Err(Refusal::DayClosed),
        Err(Refusal::EarlierCloseDay),
        Ok(Answer::Item(0)),
        Ok(Answer::Looked(0)),
    ];
    let mut matcher = Matcher::open(RENTS).unwrap();
    assert_eq!(matcher.replay(&calls), Ok(said.to_vec()));
    assert_eq!((matcher.close_day(), matcher.counts()), (Some(30), (1, 0)));
}

/// An opened board whose other lists hold nothing but nines.
fn opened() -> Lists {
    let mut lists = Lists::default();
    (lists.bytes, lists.links) = (vec![9; host::BYTES], vec![9; host::LINKS]);
    (lists.keys, lists.cents) = (vec![9; host::KEYS], vec![9; host::CENTS]);
    lists.board.fill(9);
    assert_eq!(host::open(&RENTS, &mut lists.board), 0);
    assert_eq!(lists.board[host::HAS_CLOSE], 0);
    lists
}

#[test]
fn a_close_alters_two_numbers() {
    let mut lists = opened();
    assert_eq!(host::add(&RENTS, &mut lists, 0, 0, 7, 0, 0, 0), 0);
    assert_eq!(host::step(&RENTS, &mut lists, 0), 1 << 16);
    assert_eq!((lists.board[host::HAS_CLOSE], lists.keys[host::CLOSE_DAY]), (0, 9));
    let mut wanted = lists.clone();
    (wanted.board[host::HAS_CLOSE], wanted.keys[host::CLOSE_DAY]) = (1, 5);
    assert_eq!(host::close(&RENTS, &mut lists, 5), CLOSED);
    assert_eq!(lists, wanted);
    assert_eq!(host::close(&RENTS, &mut lists, 4), refused(20));
    assert_eq!(host::close(&RENTS[..11], &mut lists, 4), refused(1));
    assert_eq!(lists, wanted);
}

#[test]
fn of_a_replayed_close_nothing_else_is_read() {
    let (mut lists, mut answers) = (opened(), [9; 3]);
    let calls = [host::CLOSE, 65_535, 65_535, 65_535, 3, 0, 0, 0];
    let replay = Replay { calls: &calls, numbers: &[u32::MAX, 5, 7, 6], amounts: &[i64::MIN, 0] };
    assert_eq!(host::replay(&RENTS, &mut lists, replay, &mut answers), 0);
    assert_eq!((answers, lists.board[0], lists.keys[host::CLOSE_DAY]), ([CLOSED, 0, 9], 1, 5));
}

#[test]
fn lists_that_are_refused() {
    let expect_refused = |lists: &mut Lists| {
        let found = lists.clone();
        assert_eq!(host::close(&RENTS, lists, 0), refused(30));
        assert_eq!(host::add(&RENTS, lists, 0, 0, 7, 0, 0, 0), refused(30));
        assert_eq!(host::step(&RENTS, lists, 0), refused(30));
        assert_eq!(host::quiet(&RENTS, lists, &mut [0]), 30);
        assert_eq!(*lists, found);
    };
    for (board, keys) in [(674, 2048), (674, 2049), (723, 2048)] {
        let mut lists = opened();
        lists.board.truncate(board);
        lists.keys.truncate(keys);
        expect_refused(&mut lists);
        assert_eq!(host::open(&RENTS, &mut lists.board), if board == 674 { 30 } else { 0 });
    }
    for flag in [2, 256, 65_535] {
        let mut lists = opened();
        lists.board[host::HAS_CLOSE] = flag;
        expect_refused(&mut lists);
    }
}
