//! Counts as a host may have set them: moved from sender to sender, or such as are no sound board's.

use crate::calls::{Call, refused};
use crate::invariant::senders;
use crate::pair::{Checked, Pair};
use crate::random::Random;
use crate::shares::{counts, has_used_up};
use crate::strays::{expect_number, expect_refused, random_call};
use reference::board::{COMMON, MESSAGES, PENDING, SENDERS, SHARE};
use reference::lists::{STATUSES, WAKERS};
use reference::{COUNTS, Lists, RESTS, Rows, Sent, State, Table};

const ITEM: u32 = 0;
const SHARE_OF_ONE: usize = SHARE as usize;
const ALL_COMMON: usize = COMMON as usize;

/// How counts are set; those of a sound board come first.
#[derive(Clone, Copy, PartialEq, Eq)]
pub enum Sort {
    Moved,
    AllCommon,
    OneMore,
    OneLess,
    Modulo,
    TooManyCommon,
    Largest,
}

pub const SORTS: [(Sort, &str); 7] = [
    (Sort::Moved, "moved and sound"),
    (Sort::AllCommon, "512 past the shares"),
    (Sort::OneMore, "the sum one more refused"),
    (Sort::OneLess, "the sum one less refused"),
    (Sort::Modulo, "the sum equal only modulo 65,536 refused"),
    (Sort::TooManyCommon, "513 past the shares refused"),
    (Sort::Largest, "counts of 65,535 refused"),
];
/// What moved counts decide of adds.
pub const DECIDING: [&str; 2] = ["an add accepted by moved counts", "an add refused by moved counts"];

impl Sort {
    fn is_sound(self) -> bool {
        matches!(self, Sort::Moved | Sort::AllCommon)
    }
}

/// Lists with such counts. On a sound board senders add, by a replay and by calls; on any other all is refused.
pub fn excursion(pair: &mut Pair, random: &mut Random) -> Checked<()> {
    let (table, found) = (pair.parsed().ok_or("the table is refused")?, pair.ours.clone());
    let ((sort, what), mut lists) = (random.pick(&SORTS), found.clone());
    recount(&mut lists, random, &table, sort);
    pair.set(&lists);
    let played = if sort.is_sound() { play_adds(pair, random, &table, &found) } else { expect_refused(pair) };
    pair.tally.seen.note(what);
    played.map_err(|difference| format!("counts, {what}, {:?}: {difference}", counts(&lists)))
}

/// Adds on a board whose counts were others before.
fn play_adds(pair: &mut Pair, random: &mut Random, table: &Table, found: &Lists) -> Checked<()> {
    let (lists, adds) = (pair.ours.clone(), adds_of_idle(random, table, &pair.ours));
    let calls: Vec<Call> = adds.iter().map(|&(_, call)| call).collect();
    expect_number(0, pair.replay(&Rows::of(&calls), calls.len())?.0)?;
    pair.set(&lists);
    for (sender, call) in adds.into_iter().take(4) {
        let has_left = [found, &pair.ours].map(|lists| !has_used_up(lists, sender));
        let answer = pair.call(call)?;
        if has_left[0] != has_left[1] && (answer >> 16 == ITEM || answer == refused(26)) {
            pair.tally.seen.note(DECIDING[usize::from(answer == refused(26))]);
        }
        pair.call(random_call(random, table, &pair.ours, sender))?;
        pair.tally.unreached += 2;
    }
    Ok(())
}

/// An add of each idle sender, with nothing wrong that counts and closed days have no say in; mostly those come first
/// that have added the most.
fn adds_of_idle(random: &mut Random, table: &Table, lists: &Lists) -> Vec<(usize, Call)> {
    let senders = senders(lists);
    let mut idle: Vec<usize> = (0..SENDERS).filter(|&i| senders[i].state == State::Idle).collect();
    if random.chance(75) {
        idle.sort_unstable_by_key(|&i| !counts(lists)[i]);
    }
    let mut add = |sender: usize| {
        let channel = random.below(table.channel_count.into()) as u16;
        (sender, Call::Add { sender: sender as u16, sent: Sent { channel, day: u32::MAX, ..Sent::default() } })
    };
    idle.into_iter().map(&mut add).collect()
}

/// Sets the counts of a sound board so; often there are more messages too, pending ones.
fn recount(lists: &mut Lists, random: &mut Random, table: &Table, sort: Sort) {
    let least = match sort {
        Sort::AllCommon => SHARE_OF_ONE + ALL_COMMON,
        Sort::TooManyCommon => SHARE_OF_ONE + ALL_COMMON + 1,
        Sort::OneLess => 1,
        _ => 0,
    };
    let present = usize::from(lists.board[0]).max(least);
    let messages = if random.chance(50) { present } else { present + random.below(MESSAGES + 1 - present) };
    put_messages(lists, random, table, messages);
    let common = match sort {
        Sort::AllCommon => ALL_COMMON,
        Sort::TooManyCommon => ALL_COMMON + 1,
        _ => some_common(random, messages),
    };
    let counts = &mut lists.board[COUNTS..RESTS];
    counts.fill(0);
    spread(counts, random, messages, common);
    match sort {
        Sort::OneMore => counts[random.below(SENDERS)] += 1,
        Sort::OneLess => *largest(counts)[0] -= 1,
        Sort::Modulo => wrap(counts, random),
        Sort::Largest => largest(counts)[..random.pick(&[1, 2, SENDERS])].iter_mut().for_each(|count| **count = 65_535),
        _ => {}
    }
}

/// So many messages, pending ones where there were fewer.
fn put_messages(lists: &mut Lists, random: &mut Random, table: &Table, messages: usize) {
    for at in usize::from(lists.board[0])..messages {
        (lists.bytes[at], lists.bytes[STATUSES + at]) = (random.below(table.channel_count.into()) as u8, PENDING);
        (lists.links[at], lists.links[WAKERS + at], lists.cents[at]) = (0, 0, 5);
    }
    lists.board[0] = messages as u16;
}

/// How many of so many messages may be common: as few or as many as can be, or any number between.
fn some_common(random: &mut Random, messages: usize) -> usize {
    let least = messages.saturating_sub(SENDERS * SHARE_OF_ONE);
    let most = messages.saturating_sub(SHARE_OF_ONE).min(ALL_COMMON);
    let between = least + random.below(most + 1 - least);
    random.pick(&[least, most, between])
}

/// Counts of so many messages, so many of them common and used by one sender or by a few.
fn spread(counts: &mut [u16], random: &mut Random, messages: usize, common: usize) {
    let (mut own, mut common) = (messages - common, common);
    let mut senders: Vec<usize> = (0..SENDERS).collect();
    (1..SENDERS).for_each(|at| senders.swap(at, random.below(at + 1)));
    let (greedy, others) =
        senders.split_at(if common == 0 { 0 } else { 1 + random.below((own / SHARE_OF_ONE).min(4)) });
    for (left, &sender) in (0..greedy.len()).rev().zip(greedy) {
        let part = if left == 0 { common } else { random.below(common + 1) };
        counts[sender] = (SHARE_OF_ONE + part) as u16;
        (own, common) = (own - SHARE_OF_ONE, common - part);
    }
    let most = own.div_ceil(others.len()).max(1 + random.below(SHARE_OF_ONE));
    for &sender in others {
        counts[sender] = own.min(most) as u16;
        own -= own.min(most);
    }
}

/// The counts, the largest first.
fn largest(counts: &mut [u16]) -> Vec<&mut u16> {
    let mut counts: Vec<&mut u16> = counts.iter_mut().collect();
    counts.sort_unstable_by(|one, two| two.cmp(one));
    counts
}

/// Adds 65,536 in all.
fn wrap(counts: &mut [u16], random: &mut Random) {
    let some = random.pick(&[2, 4, SENDERS]);
    largest(counts)[..some].iter_mut().for_each(|count| **count += (65_536 / some) as u16);
}

#[cfg(test)]
mod tests {
    use super::*;
    use crate::plain_rust::{Reference, Verdict};
    use crate::shares::common_used;
    use reference::table::table_bytes;

    /// Sums of the counts and of what is past the shares, after every sort, on boards of so many messages or more.
    #[test]
    fn sums() {
        let table =
            Table::read(&table_bytes(&[0, 1], &[([0, 1], reference::Equality::Any)])).expect("an accepted table");
        let (mut random, mut judge) = (Random::new(1), Reference::default());
        for turn in 0..3_000 {
            let mut lists = Lists::default();
            put_messages(&mut lists, &mut random, &table, [0, 1, 16, 17, 511, 512, 513, 528, 1023, 1024][turn % 10]);
            let (sort, what) = SORTS[turn % SORTS.len()];
            recount(&mut lists, &mut random, &table, sort);
            let is_sound = judge.verdict(&table, &lists) == Verdict::Sound;
            assert_eq!(is_sound, sort.is_sound(), "{what} {:?}", counts(&lists));
            let (counts, messages) = (counts(&lists), u32::from(lists.board[0]));
            let off = counts.iter().map(|&count| u32::from(count)).sum::<u32>().wrapping_sub(messages) as i32;
            let (off_by, common) = match sort {
                Sort::Moved => (0, None),
                Sort::AllCommon => (0, Some(512)),
                Sort::TooManyCommon => (0, Some(513)),
                Sort::OneMore => (1, None),
                Sort::OneLess => (-1, None),
                Sort::Modulo => (65_536, None),
                Sort::Largest => continue,
            };
            assert_eq!((off, common.unwrap_or(common_used(counts))), (off_by, common_used(counts)), "{what}");
        }
    }
}
