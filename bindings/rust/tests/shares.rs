//! Each sender's own messages and the common ones: what a sender gets, what stays the others', and tallies that a host
//! has set.

use gevnyusto::host::{self, Lists, Replay};
use gevnyusto::{Answer, Call, Matcher, Refusal};

/// Two channels that leave; a chord of both, with equal property numbers.
const RENTS: [u8; 20] = [2, 0, 1, 0, 2, 0, 12, 0, 14, 0, 18, 0, 0, 0, 0, 0, 2, 1, 0, 1];
const USED_UP: Result<Answer, Refusal> = Err(Refusal::ShareUsedUp);

fn refused(number: u32) -> u32 {
    17 << 16 | number
}

fn opened() -> Matcher {
    Matcher::open(RENTS).unwrap()
}

fn add(matcher: &mut Matcher, sender: u16) -> Result<Answer, Refusal> {
    matcher.add(sender, 0, 7, 0, 0, 0)
}

/// How many adds of a sender are accepted until one is refused 26.
fn fill(matcher: &mut Matcher, sender: u16) -> u16 {
    for accepted in 0.. {
        let said = add(matcher, sender);
        if said == USED_UP {
            return accepted;
        }
        said.unwrap();
        while matcher.step(sender).is_ok() {}
    }
    0
}

#[test]
fn one_sender_and_the_others() {
    let mut matcher = opened();
    assert_eq!(fill(&mut matcher, 5), 528);
    for sender in (0..32).filter(|&sender| sender != 5) {
        assert_eq!((matcher.added(sender), fill(&mut matcher, sender)), (Some(0), 16));
        assert_eq!((matcher.added(sender), matcher.added(5)), (Some(16), Some(528)));
    }
    assert_eq!((matcher.counts(), matcher.added(32), matcher.added(u16::MAX)), ((1024, 0), None, None));
    (0..32).for_each(|sender| assert_eq!(add(&mut matcher, sender), USED_UP));
    assert_eq!((Refusal::ShareUsedUp.number(), Refusal::from_number(12)), (26, Refusal::Other(12)));
}

#[test]
fn a_full_board_needs_all() {
    let mut matcher = opened();
    let added: Vec<u16> = (0..31).map(|sender| fill(&mut matcher, sender)).collect();
    assert_eq!((added[0], &added[1..]), (528, &[16; 30][..]));
    (0..31).for_each(|sender| assert_eq!(add(&mut matcher, sender), USED_UP));
    assert_eq!((matcher.counts().0, fill(&mut matcher, 31)), (1008, 16));
    (0..32).for_each(|sender| assert_eq!(add(&mut matcher, sender), USED_UP));
}

#[test]
fn matched_messages_give_nothing_back() {
    let mut matcher = opened();
    for message in 0..528 {
        matcher.add(9, message % 2, 7, 0, 0, 0).unwrap();
        while matcher.step(9).is_ok() {}
    }
    assert_eq!((matcher.counts(), add(&mut matcher, 9)), ((528, 264), USED_UP));
    assert_eq!(add(&mut matcher, 8), Ok(Answer::Item(528)));
}

#[test]
fn the_order_of_refusals() {
    let mut matcher = opened();
    fill(&mut matcher, 0);
    let wild = i64::MAX;
    assert_eq!(matcher.add(32, 2, 7, wild, 0, 0), Err(Refusal::NoSuchSender));
    assert_eq!(matcher.add(0, 2, 7, wild, 0, 0), Err(Refusal::NoSuchChannel));
    assert_eq!(matcher.add(0, 0, 7, wild, 0, 0), Err(Refusal::CentsOutOfRange));
    matcher.close(0).unwrap();
    assert_eq!(matcher.add(0, 0, 7, wild, 0, 0), Err(Refusal::DayClosed));
    assert_eq!(matcher.add(0, 0, 7, 0, 1, 0), USED_UP);
    for _ in 0..15 {
        matcher.add(1, 0, 7, 0, 1, 0).unwrap();
        while matcher.step(1).is_ok() {}
    }
    assert_eq!(matcher.add(1, 0, 7, 0, 1, 0), Ok(Answer::Item(543)));
    assert_eq!(matcher.add(1, 0, 7, 0, 1, 0), Err(Refusal::SenderNotIdle));
}

#[test]
fn replayed() {
    let add = |sender: u16| Call::Add { sender, channel: 0, property: 7, cents: 0, day: 1, unit: 0 };
    let mut calls = vec![Call::Close { day: 0 }];
    for _ in 0..529 {
        calls.extend([add(3), Call::Step { sender: 3 }, Call::Step { sender: 3 }, Call::Step { sender: 3 }]);
    }
    calls.push(add(4));
    let mut matcher = opened();
    let said = matcher.replay(&calls).unwrap();
    let adds: Vec<_> = said[1..].iter().step_by(4).copied().collect();
    assert_eq!((adds[527], adds[528], adds[529]), (Ok(Answer::Item(527)), USED_UP, Ok(Answer::Item(528))));
    assert_eq!((matcher.added(3), matcher.added(4), matcher.added(5)), (Some(528), Some(1), Some(0)));
}

/// A quiet board of so many messages, with these tallies of the first senders.
fn counted(messages: u16, tallies: &[u16]) -> Lists {
    let mut lists = Lists::default();
    lists.board[0] = messages;
    lists.board[host::TALLIES..][..tallies.len()].copy_from_slice(tallies);
    lists
}

/// What an add of that sender answers; an accepted one adds 1 to its tally, any other alters nothing.
fn answer(lists: &mut Lists, sender: u16) -> u32 {
    let mut found = lists.clone();
    let answer = host::add(&RENTS, lists, sender, 0, 7, 0, 0, 0);
    if answer >> 16 == 0 {
        found.board[host::TALLIES + usize::from(sender)] += 1;
        assert_eq!(lists.board[host::TALLIES..], found.board[host::TALLIES..]);
    } else {
        assert_eq!(*lists, found);
    }
    answer
}

#[test]
fn tallies_that_a_host_has_moved() {
    let mut lists = counted(528, &[528]);
    assert_eq!([0, 0, 1, 2].map(|sender| answer(&mut lists, sender)), [refused(26), refused(26), 528, 529]);
    let mut lists = counted(543, &[0, 511, 32]);
    assert_eq!([1, 2, 0].map(|sender| answer(&mut lists, sender)), [543, refused(26), 544]);
    let mut lists = counted(528, &[16; 32]);
    assert_eq!([31, 0].map(|sender| answer(&mut lists, sender)), [refused(30); 2]);
    let mut lists = counted(512, &[16; 32]);
    assert_eq!([31, 0].map(|sender| answer(&mut lists, sender)), [512, 513]);
    let mut lists = counted(544, &[272, 272]);
    assert_eq!([1, 0, 2].map(|sender| answer(&mut lists, sender)), [refused(26), refused(26), 544]);
}

#[test]
fn tallies_of_no_sound_board() {
    let sum_is_off: [(u16, &[u16]); 5] = [(0, &[1]), (1, &[]), (5, &[4]), (5, &[6]), (544, &[272, 271])];
    let wrapping: [(u16, &[u16]); 4] =
        [(0, &[65_535, 1]), (5, &[32_768, 32_773]), (0, &[2048; 32]), (0, &[65_535; 32])];
    let too_many_common: [(u16, &[u16]); 4] = [(529, &[529]), (545, &[273, 272]), (1024, &[1024]), (1023, &[33; 31])];
    for (messages, tallies) in [&sum_is_off[..], &wrapping, &too_many_common].concat() {
        let mut lists = counted(messages, tallies);
        assert_eq!(answer(&mut lists, 0), refused(30), "{messages} {tallies:?}");
        let found = lists.clone();
        assert_eq!(host::step(&RENTS, &mut lists, 0), refused(30));
        assert_eq!(host::close(&RENTS, &mut lists, 0), refused(30));
        let none = Replay { calls: &[], numbers: &[], amounts: &[] };
        assert_eq!(host::replay(&RENTS, &mut lists, none, &mut []), 30);
        assert_eq!((host::quiet(&RENTS, &lists, &mut [0]), lists == found), (30, true));
    }
}

#[test]
fn lists_without_tallies() {
    for length in [675, 706, 707] {
        let mut lists = Lists::default();
        lists.board.resize(length, 0);
        assert_eq!(answer(&mut lists, 0), refused(30));
        assert_eq!(host::quiet(&RENTS, &lists, &mut [0]), 30);
        assert_eq!(host::open(&RENTS, &mut lists.board), 30);
    }
}

#[test]
fn what_moves_no_tally() {
    let mut lists = counted(0, &[9; 32]);
    assert_eq!(host::open(&RENTS, &mut lists.board), 0);
    assert_eq!(lists.board[host::TALLIES..host::BACKOFFS], [0; 32]);
    assert_eq!([6, 7].map(|sender| answer(&mut lists, sender)), [0, 1]);
    let tallies = lists.board[host::TALLIES..].to_vec();
    assert_eq!(host::close(&RENTS, &mut lists, 0), 18 << 16);
    assert_eq!(answer(&mut lists, 8), refused(19));
    while host::step(&RENTS, &mut lists, 6) >> 16 != 17 {}
    assert_eq!((&lists.board[host::TALLIES..], lists.board.len()), (&tallies[..], host::BOARD_NUMBERS));
}
