//! The lists of a board over the plain functions: what stands where after table P's run, and what is refused.

use gevnyusto::host::{self, Lists, Replay};

const TABLE_P: [u8; 20] = [2, 0, 1, 0, 2, 0, 12, 0, 14, 0, 18, 0, 0, 1, 0, 0, 2, 1, 0, 1];
const NO_BOARD: u32 = 17 * 65_536 + 30;

/// Two adds, and ten steps of each of both senders: an add of any kind but 0.
fn run_of_p() -> (Vec<u16>, Vec<u32>, Vec<i64>) {
    let steps = |sender: u16| [host::STEP, sender, 0, 0].repeat(10);
    let calls = [vec![host::ADD, 0, 1, 3], steps(0), vec![65_535, 1, 0, u16::MAX], steps(1), steps(0)].concat();
    let (mut numbers, mut amounts) = (vec![0; 64], vec![0; 32]);
    (numbers[0], numbers[1], numbers[22], numbers[23]) = (7, 20_454, 7, u32::MAX);
    amounts[11] = 5000;
    (calls, numbers, amounts)
}

fn opened() -> Lists {
    let mut lists = Lists::default();
    assert_eq!(host::open(&TABLE_P, &mut lists.board), 0);
    lists
}

#[test]
fn places() {
    let (mut lists, (calls, numbers, amounts)) = (opened(), run_of_p());
    let replay = Replay { calls: &calls, numbers: &numbers, amounts: &amounts };
    assert_eq!(host::replay(&TABLE_P, &mut lists, replay, &mut [0; 32]), 0);
    assert_eq!(lists.board[..2], [2, 1]);
    assert_eq!((&lists.bytes[..2], &lists.bytes[1024..1026], lists.bytes[2048]), (&[1, 0][..], &[3, 3][..], 0));
    assert_eq!((&lists.links[..2], &lists.links[1024..1026]), (&[1, 1][..], &[2, 0][..]));
    assert_eq!(lists.links[2048..2050], [1, 0]);
    assert_eq!((&lists.keys[..2], &lists.cents[..2]), (&[7, 7][..], &[0, 5000][..]));
    assert_eq!(lists.keys[host::DAYS..][..2], [20_454, u32::MAX]);
    assert_eq!(lists.links[host::UNITS..][..3], [3, u16::MAX, 0]);
}

#[test]
fn lists_of_another_length() {
    for list in 0..6 {
        let mut lists = opened();
        match list {
            0 => lists.board.push(0),
            1 => lists.bytes.truncate(1024),
            2 => lists.links.truncate(10_240),
            3 => lists.keys.truncate(1024),
            4 => lists.keys.push(0),
            _ => lists.cents.truncate(1023),
        }
        let found = lists.clone();
        assert_eq!(host::add(&TABLE_P, &mut lists, 0, 1, 7, 0, 0, 0), NO_BOARD);
        assert_eq!(host::step(&TABLE_P, &mut lists, 0), NO_BOARD);
        assert_eq!(host::close(&TABLE_P, &mut lists, 0), NO_BOARD);
        assert_eq!(host::quiet(&TABLE_P, &lists, &mut [0]), 30);
        assert_eq!(host::open(&TABLE_P, &mut lists.board), if list == 0 { 30 } else { 0 });
        assert_eq!(lists, found);
    }
}

#[test]
fn rows_of_another_length() {
    let (calls, numbers, amounts) = run_of_p();
    let whole = Replay { calls: &calls, numbers: &numbers, amounts: &amounts };
    let uneven = [
        Replay { calls: &calls[..127], ..whole },
        Replay { calls: &calls[..96], ..whole },
        Replay { calls: &calls[..32], ..whole },
        Replay { numbers: &numbers[..63], ..whole },
        Replay { numbers: &numbers[..32], ..whole },
        Replay { amounts: &amounts[..31], ..whole },
    ];
    let (mut lists, found, mut answers) = (opened(), opened(), [9; 31]);
    for replay in uneven {
        assert_eq!(host::replay(&TABLE_P, &mut lists, replay, &mut answers), 30);
    }
    assert_eq!(host::replay(&TABLE_P, &mut lists, whole, &mut answers), 31);
    assert_eq!((lists, answers), (found, [9; 31]));
}

#[test]
fn units_of_records() {
    let mut lists = opened();
    lists.links[host::UNITS..].fill(9);
    let found = lists.clone();
    assert_eq!(host::add(&TABLE_P, &mut lists, 0, 2, 7, 0, 0, 4), 17 * 65_536 + 10);
    assert_eq!(lists, found);
    assert_eq!(host::add(&TABLE_P, &mut lists, 0, 1, 7, 0, 0, 4), 0);
    assert_eq!(lists.links[host::UNITS..][..3], [4, 9, 9]);
    assert_eq!(lists.links[host::UNITS + 1..], found.links[host::UNITS + 1..]);
    let mut out = [-1; 9];
    assert_eq!(host::read_message(&TABLE_P, &lists, 0, &mut out[..7]), 31);
    assert_eq!(host::read_message(&TABLE_P, &lists, 0, &mut out), 0);
    assert_eq!(out, [1, 7, 0, 0, 0, 0, 0, 4, -1]);
}
