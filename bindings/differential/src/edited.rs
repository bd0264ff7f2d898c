//! Boards whose backoff table a host has edited: one that passes is read from then on, any other is refused.

use crate::backoffs::{KINDS, entry_of, rests};
use crate::invariant::senders;
use crate::pair::{Checked, Pair};
use crate::random::Random;
use crate::strays::{expect_number, expect_refused, random_call};
use reference::backoff::{BUILT_IN, ENTRIES, MOST_RESTS};
use reference::board::{PENDING, SENDERS};
use reference::calls::Call;
use reference::lists::STATUSES;
use reference::{Lists, RESTS, Rows, SENDER_NUMBERS, State, Table};

const AGAIN: u32 = 12;
const RESTED: u32 = 14;

/// How a table is edited; those that pass come first.
#[derive(Clone, Copy, PartialEq, Eq)]
pub enum Sort {
    Other,
    OneEntry,
    Falling,
    Over,
    LowByte,
    Largest,
}

const SORTS: [(Sort, &str); 6] = [
    (Sort::Other, "another that passes"),
    (Sort::OneEntry, "one entry moved and passing"),
    (Sort::Falling, "an entry less than the one before refused"),
    (Sort::Over, "a last 65 refused"),
    (Sort::LowByte, "passing by low bytes refused"),
    (Sort::Largest, "a last 65,535 refused"),
];
/// What an edited table decides of a sender at the end of its pass.
const DECIDING: [&str; 3] = ["rests by an edited table", "none by an edited table", "a 17th again by an edited table"];

/// All that is to be met.
pub fn by_edits() -> Vec<String> {
    SORTS.map(|(_, what)| what).iter().chain(&DECIDING).map(|what| what.to_string()).collect()
}

impl Sort {
    fn passes(self) -> bool {
        matches!(self, Sort::Other | Sort::OneEntry)
    }
}

pub fn excursion(pair: &mut Pair, random: &mut Random) -> Checked<()> {
    let (table, (sort, what)) = (pair.parsed().ok_or("the table is refused")?, random.pick(&SORTS));
    let mut lists = pair.ours.clone();
    let waiting = put_at_pass_end(&mut lists, random);
    edit(&mut lists.board[RESTS..], random, sort);
    pair.set(&lists);
    let played = if sort.passes() { play(pair, random, &table, waiting) } else { expect_refused(pair) };
    pair.tally.seen.note(what);
    played.map_err(|difference| format!("backoffs, {what}, {:?}: {difference}", rests(&lists)))
}

fn edit(rests: &mut [u16], random: &mut Random, sort: Sort) {
    let (kind, _) = random.pick(&KINDS);
    let other = kind.bytes(random).unwrap_or(BUILT_IN.0.to_vec());
    rests.iter_mut().zip(other).for_each(|(entry, other)| *entry = other.into());
    let (at, most) = (random.below(ENTRIES), u16::from(MOST_RESTS));
    match sort {
        Sort::Other => {}
        Sort::OneEntry => rests[at] = if at + 1 < ENTRIES { rests[at + 1] } else { most },
        Sort::Falling => {
            let at = at.max(1);
            rests[..at].iter_mut().for_each(|entry| *entry = (*entry).max(1));
            let before = rests[at - 1];
            rests[at..].iter_mut().for_each(|entry| *entry = (*entry).max(before));
            rests[at] = before - 1;
        }
        Sort::Over => rests[ENTRIES - 1] = most + 1,
        Sort::LowByte => rests[at..].iter_mut().for_each(|entry| *entry += 256),
        Sort::Largest => rests[ENTRIES - 1] = u16::MAX,
    }
}

/// A sender at the end of a pass with its mark set, and which `again` of its job comes next; none on an empty board.
fn put_at_pass_end(lists: &mut Lists, random: &mut Random) -> Option<(usize, usize)> {
    let (senders, sender) = (senders(lists), random.below(SENDERS));
    let is_other = |i: usize| i != sender && senders[i].state != State::Idle;
    let owned = |message: u16| (0..SENDERS).any(|i| is_other(i) && senders[i].own == Some(message));
    let message = (0..lists.board[0]).rev().find(|&message| !owned(message))?;
    let retries = if random.chance(50) { random.below(ENTRIES) } else { ENTRIES - 3 + random.below(6) };
    let numbers = &mut lists.board[2 + SENDER_NUMBERS * sender..][..SENDER_NUMBERS];
    (numbers[0], numbers[2], numbers[3], numbers[6]) = (1, message + 1, 0, message);
    numbers[7..13].copy_from_slice(&[0, 8, 0, 0, 1, retries as u16]);
    lists.bytes[STATUSES + usize::from(message)] = PENDING;
    Some((sender, retries + 1))
}

/// Steps of the waiting sender, by a replay and by calls: as many rest as the edited table says.
fn play(pair: &mut Pair, random: &mut Random, table: &Table, waiting: Option<(usize, usize)>) -> Checked<()> {
    let Some((sender, again)) = waiting else { return Ok(()) };
    let (lists, step) = (pair.ours.clone(), Call::Step { sender: sender as u16 });
    let wanted = usize::from(rests(&lists)[entry_of(again) - 1]);
    let (number, answers) = pair.replay(&Rows::of(&vec![step; wanted + 2]), wanted + 2)?;
    expect_number(0, number)?;
    let words: Vec<u32> = answers.iter().map(|answer| answer >> 16).collect();
    if words[0] != AGAIN || words[1..].iter().take_while(|&&word| word == RESTED).count() != wanted {
        return Err(format!("after again {again} not {wanted} rests: {words:?}"));
    }
    pair.tally.seen.note(DECIDING[usize::from(wanted == 0)]);
    if again > ENTRIES {
        pair.tally.seen.note(DECIDING[2]);
    }
    pair.set(&lists);
    for turn in 0..4 {
        let call = if turn < 3 { step } else { random_call(random, table, &pair.ours, sender) };
        pair.call(call)?;
        pair.tally.unreached += 1;
    }
    Ok(())
}

#[cfg(test)]
mod tests {
    use super::*;
    use reference::Backoff;

    #[test]
    fn sorts_pass_or_not() {
        let mut random = Random::new(1);
        for turn in 0..3_000 {
            let ((sort, what), mut rests) = (SORTS[turn % SORTS.len()], [0; 16]);
            edit(&mut rests, &mut random, sort);
            let bytes: Vec<u8> = rests.iter().filter_map(|&entry| entry.try_into().ok()).collect();
            assert_eq!(Backoff::given(&bytes).is_some(), sort.passes(), "{what} {rests:?}");
            assert!(sort != Sort::LowByte || Backoff::given(&rests.map(|entry| entry as u8)).is_some());
        }
    }
}
