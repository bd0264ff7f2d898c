//! Openings with backoff tables that pass or do not, under accepted and damaged tables, on boards of any length.

use crate::backoffs::{self, KINDS, Kind, rests};
use crate::pair::{Checked, Pair};
use crate::random::{Random, damage};
use crate::strays::{expect_number, lent_anything};
use reference::backoff::BUILT_IN;
use reference::table::table_refusal;
use reference::{Lists, NUMBERS, RESTS};

/// Numbers that a board does not have: as before there were rests, one fewer, one more, none.
const LENGTHS: [usize; 4] = [RESTS, NUMBERS - 1, NUMBERS + 1, 0];
/// What is wrong beside the backoff table, or alone.
const ORDERS: [&str; 5] = [
    "a table's number before 21",
    "a table's number before 21 and another length",
    "a table's number with backoffs that pass",
    "21 before another length",
    "another length with backoffs that pass",
];

/// What is given, and why it does not pass.
struct Given {
    bytes: Option<Vec<u8>>,
    kind: Kind,
    ground: Option<String>,
}

impl Given {
    fn new(random: &mut Random) -> Given {
        let (kind, _) = random.pick(&KINDS);
        if random.chance(35) {
            return Given { bytes: kind.bytes(random), kind, ground: None };
        }
        let (ground, bytes) = backoffs::damaged(random);
        Given { bytes: Some(bytes), kind, ground: Some(ground) }
    }
}

fn refused(ground: &str) -> String {
    format!("21 for {ground}")
}

fn accepted(kind: Kind) -> String {
    backoffs::opened("accepted", kind)
}

/// All that openings can meet.
pub fn by_openings() -> Vec<String> {
    let grounds = backoffs::grounds().into_iter().map(|ground| refused(&ground));
    grounds.chain(KINDS.map(|(kind, _)| accepted(kind))).chain(ORDERS.map(String::from)).collect()
}

/// Openings of the schedule's board, and of one that holds anything; what is wrong first is answered.
pub fn excursion(pair: &mut Pair, random: &mut Random) -> Checked<()> {
    let (lists, table) = (pair.ours.clone(), pair.table.clone());
    (0..8).try_for_each(|_| open(pair, random, lists.clone(), table.clone()))
}

fn open(pair: &mut Pair, random: &mut Random, mut lists: Lists, mut table: Vec<u8>) -> Checked<()> {
    if random.chance(50) {
        lists = lent_anything(random);
    }
    if random.chance(30) {
        damage(&mut table, random);
    }
    if random.chance(30) {
        lists.board.resize(random.pick(&LENGTHS), 1);
    }
    pair.set(&lists);
    let (given, numbers) = (Given::new(random), lists.board.len());
    let said = |difference: String| format!("opening with {:?}, {numbers} numbers: {difference}", given.bytes);
    let number = pair.open(table, given.bytes.as_deref()).map_err(said)?;
    judge(pair, &given, number).map_err(said)
}

/// The number is that of what is wrong first, and an opened board has the table that was given.
fn judge(pair: &mut Pair, given: &Given, number: u8) -> Checked<()> {
    let (refusal, is_short) = (table_refusal(&pair.table), pair.ours.board.len() != NUMBERS);
    let (expected, seen) = match (refusal, &given.ground, is_short) {
        (0, None, false) => (0, accepted(given.kind)),
        (0, None, true) => (30, ORDERS[4].to_string()),
        (0, Some(ground), false) => (21, refused(ground)),
        (0, Some(_), true) => (21, ORDERS[3].to_string()),
        (_, None, _) => (refusal, ORDERS[2].to_string()),
        (_, Some(_), is_short) => (refusal, ORDERS[usize::from(is_short)].to_string()),
    };
    expect_number(expected, number)?;
    pair.tally.seen.note(seen);
    let wanted = given.bytes.as_deref().unwrap_or(&BUILT_IN.0);
    let wanted: Vec<u16> = wanted.iter().map(|&rests| rests.into()).collect();
    let holds = number != 0 || rests(&pair.ours) == wanted;
    if holds { Ok(()) } else { Err(format!("the board has the table {:?}", rests(&pair.ours))) }
}
