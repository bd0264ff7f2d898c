//! Backoff tables of one's own: how long senders rest by them, which are refused and before what, and such as a host
//! has set.

use gevnyusto::host::{self, Lists, Replay};
use gevnyusto::{Answer, Call, Matcher, Refusal};

/// One channel that leaves, named twice by a chord.
const TWICE: [u8; 19] = [1, 0, 1, 0, 2, 0, 12, 0, 13, 0, 17, 0, 0, 0, 0, 2, 0, 0, 0];
const BUILT_IN: [u8; 16] = [0, 1, 1, 2, 2, 4, 4, 8, 8, 16, 16, 16, 32, 32, 32, 32];
const RISING: [u8; 16] = [3, 3, 4, 5, 6, 7, 8, 9, 10, 11, 12, 13, 14, 15, 20, 64];

fn refused(number: u32) -> u32 {
    17 << 16 | number
}

/// Sender 0 has claimed its message, so that sender 1 tries again and again.
fn contended(mut matcher: Matcher) -> Matcher {
    for sender in [0, 1] {
        matcher.add(sender, 0, 7, 0, 0, 0).unwrap();
    }
    let said = [0; 3].map(|sender| matcher.step(sender).unwrap());
    assert_eq!(said, [Answer::Looked(0), Answer::Looked(1), Answer::Claimed(0)]);
    matcher
}

/// How long sender 1 rests after each of the next so many `again`s.
fn waits(matcher: &mut Matcher, count: usize) -> Vec<u8> {
    let mut waits = Vec::new();
    while waits.len() <= count {
        match matcher.step(1).unwrap() {
            Answer::Again => waits.push(0),
            Answer::Rested => *waits.last_mut().unwrap() += 1,
            Answer::Looked(_) | Answer::Missed => {}
            answer => panic!("{answer}"),
        }
    }
    waits.truncate(count);
    waits
}

/// The entries of a table, and its last one for those past the sixteenth.
fn said_by(rests: [u8; 16], count: usize) -> Vec<u8> {
    (0..count).map(|at| rests[at.min(15)]).collect()
}

#[test]
fn after_each_again() {
    for rests in [BUILT_IN, RISING, [0; 16], [64; 16], [1; 16]] {
        let mut matcher = contended(Matcher::open_with_rests(TWICE, &rests).unwrap());
        assert_eq!(waits(&mut matcher, 20), said_by(rests, 20));
        assert_eq!(matcher.rests(), rests);
        matcher.close(5).unwrap();
        assert_eq!((matcher.rests(), matcher.added(31), matcher.added(32)), (rests, Some(0), None));
    }
    let mut matcher = contended(Matcher::open(TWICE).unwrap());
    assert_eq!((matcher.rests(), waits(&mut matcher, 18)), (BUILT_IN, said_by(BUILT_IN, 18)));
}

#[test]
fn replayed() {
    let mut matcher = contended(Matcher::open_with_rests(TWICE, &RISING).unwrap());
    let said = matcher.replay(&[Call::Step { sender: 1 }; 8]).unwrap();
    let rests = [Ok(Answer::Rested); 3];
    let pass = [Ok(Answer::Looked(1)), Ok(Answer::Missed), Ok(Answer::Again)];
    assert_eq!(said, [&pass[..], &rests, &pass[..2]].concat());
}

/// What opening a board of so many numbers with those bytes answers; a refused one leaves every number.
fn opened(table: &[u8], rests: &[u8], numbers: usize) -> u8 {
    let mut board = vec![9; numbers];
    let number = host::open_with_rests(table, rests, &mut board);
    assert!(number == 0 || board.iter().all(|&it| it == 9));
    number
}

fn with(at: usize, entry: u8) -> [u8; 16] {
    let mut rests = [7; 16];
    rests[at] = entry;
    rests
}

#[test]
fn tables_that_do_not_pass() {
    let open = |rests: &[u8]| opened(&TWICE, rests, 723);
    for length in (0..48).chain([255, 256, 65_536]) {
        assert_eq!(open(&vec![5; length]), if length == 16 { 0 } else { 21 }, "{length}");
    }
    for at in 0..16 {
        assert_eq!([7, 6].map(|entry| open(&with(at, entry))), [0, if at == 0 { 0 } else { 21 }]);
        assert_eq!(open(&with(at, 8)), if at == 15 { 0 } else { 21 });
    }
    assert_eq!([64, 65, 128, 255].map(|most| open(&with(15, most))), [0, 21, 21, 21]);
    assert_eq!([0, 64, 65, 255].map(|all| open(&[all; 16])), [0, 0, 21, 21]);
    assert_eq!(Matcher::open_with_rests(TWICE, &[]).err(), Some(Refusal::WrongBackoffs));
    assert_eq!((Refusal::WrongBackoffs.number(), Refusal::from_number(22)), (21, Refusal::Other(22)));
}

#[test]
fn the_order_of_refusals() {
    assert_eq!([707, 722, 724].map(|numbers| opened(&TWICE, &[], numbers)), [21; 3]);
    assert_eq!([707, 722, 724].map(|numbers| opened(&TWICE, &BUILT_IN, numbers)), [30; 3]);
    assert_eq!([11, 18].map(|length| opened(&TWICE[..length], &[], 707)), [1, 3]);
    assert_eq!(opened(&TWICE[..18], &BUILT_IN, 723), 3);
}

/// An opened board with these numbers for its backoff table.
fn edited(rests: [u16; 16]) -> Lists {
    let mut lists = Lists::default();
    assert_eq!(host::open(&TWICE, &mut lists.board), 0);
    assert_eq!(lists.board[host::BACKOFFS..], BUILT_IN.map(u16::from));
    lists.board[host::BACKOFFS..].copy_from_slice(&rests);
    lists
}

#[test]
fn tables_of_no_sound_board() {
    let mut falling = [7; 16];
    falling[15] = 6;
    for rests in [[65; 16], [256; 16], [65_535; 16], falling, RISING.map(|it| if it == 64 { 320 } else { it.into() })] {
        let mut lists = edited(rests);
        let found = lists.clone();
        assert_eq!(host::add(&TWICE, &mut lists, 40, 9, 7, 0, 0, 0), refused(30));
        assert_eq!(host::step(&TWICE, &mut lists, 0), refused(30));
        assert_eq!(host::close(&TWICE, &mut lists, 0), refused(30));
        let none = Replay { calls: &[], numbers: &[], amounts: &[] };
        assert_eq!(host::replay(&TWICE, &mut lists, none, &mut []), 30);
        assert_eq!((host::quiet(&TWICE, &lists, &mut [0]), lists == found), (30, true));
        assert_eq!(host::open(&TWICE, &mut lists.board), 0);
        assert_eq!(lists.board[host::BACKOFFS..], BUILT_IN.map(u16::from));
    }
}

#[test]
fn what_a_host_has_set_is_read() {
    let mut lists = edited([5; 16]);
    let add = |sender: u16| [host::ADD, sender, 0, 0];
    let step = |sender: u16| [host::STEP, sender, 0, 0];
    let calls = [vec![add(0), add(1)], vec![step(0); 3], vec![step(1); 9]].concat();
    let (numbers, amounts, mut answers) = ([0; 28], [0; 14], [0; 14]);
    let replay = Replay { calls: calls.as_flattened(), numbers: &numbers, amounts: &amounts };
    assert_eq!(host::replay(&TWICE, &mut lists, replay, &mut answers), 0);
    let words: Vec<u32> = answers[5..].iter().map(|answer| answer >> 16).collect();
    assert_eq!((words, &lists.board[host::BACKOFFS..]), (vec![1, 2, 12, 14, 14, 14, 14, 14, 1], &[5; 16][..]));
}
