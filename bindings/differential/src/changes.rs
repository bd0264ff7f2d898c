//! Changes to a board that no call makes.

use crate::invariant::senders;
use crate::random::Random;
use reference::board::{CLAIMED, MESSAGES, MOST_CENTS, PENDING};
use reference::lists::{CHORDS, CLOSE_DAY, DAYS, MEMBERS, STATUSES, UNITS, WAKERS};
use reference::{COUNTS, HAS_CLOSE, Lists, RESTS, SENDER_NUMBERS, Sender, State, Table};

/// Changes one number anywhere to any value; says in which of `PARTS`, and what.
pub fn change_any(lists: &mut Lists, random: &mut Random) -> (usize, String) {
    let value = match random.below(3) {
        0 => random.next() as u16,
        1 => random.below(12) as u16,
        _ => random.below(MESSAGES + 2) as u16,
    };
    let (at, match_at) = (place(lists.board[0], random), place(lists.board[1], random));
    let cents = random.pick(&[MOST_CENTS + 1, -MOST_CENTS - 1, i64::MIN, i64::MAX, 5]);
    match random.below(19) {
        0 => (1, put(&mut lists.bytes, at, value as u8)),
        1 => (2, put(&mut lists.bytes, STATUSES + at, value as u8)),
        2 => (3, put(&mut lists.bytes, CHORDS + match_at, value as u8)),
        3 => (4, put(&mut lists.links, at, value)),
        4 => (5, put(&mut lists.links, WAKERS + at, value)),
        5 => (6, put(&mut lists.links, MEMBERS + 8 * match_at + random.below(8), value)),
        6 => (7, put(&mut lists.links, UNITS + at, random.pick(&[0, 1, value, u16::MAX]))),
        7 => (8, put(&mut lists.keys, at, value.into())),
        8 => (9, put(&mut lists.keys, DAYS + at, random.pick(&[0, 1, value.into(), u32::MAX]))),
        9 => (10, put(&mut lists.cents, at, cents)),
        10 => (11, put(&mut lists.board, HAS_CLOSE, random.pick(&[0, 1, 2, 3, value]))),
        11 => (12, put(&mut lists.keys, CLOSE_DAY, random.pick(&[0, 1, value.into(), u32::MAX]))),
        12 => (13, put_another_count(&mut lists.board[COUNTS..RESTS], random, value)),
        13 => (14, put_entry(&mut lists.board[RESTS..], random, value)),
        _ => {
            let at = random.below(HAS_CLOSE);
            (0, put(&mut lists.board, at, value))
        }
    }
}

/// Mostly below the count, and of records that there are.
fn place(count: u16, random: &mut Random) -> usize {
    if random.chance(10) { random.below(MESSAGES) } else { random.below(usize::from(count).clamp(1, MESSAGES)) }
}

fn put<T: std::fmt::Display + Copy>(numbers: &mut [T], at: usize, value: T) -> String {
    numbers[at] = value;
    format!("at {at} changed to {value}")
}

fn put_another_count(counts: &mut [u16], random: &mut Random, value: u16) -> String {
    let at = random.below(counts.len());
    let other = random.pick(&[1, u16::MAX, value.max(1)]);
    put(counts, at, counts[at].wrapping_add(other))
}

/// An entry as one beside it, one more or less, or any number.
fn put_entry(rests: &mut [u16], random: &mut Random, value: u16) -> String {
    let at = random.below(rests.len());
    let (before, next) = (rests[at.saturating_sub(1)], rests[(at + 1).min(rests.len() - 1)]);
    put(rests, at, random.pick(&[before, next, next + 1, before.wrapping_sub(1), 64, 65, value]))
}

/// Channels, statuses, units, properties and days as messages have them, most of them pending and many of them old.
pub fn put_leftovers(lists: &mut Lists, random: &mut Random) {
    lists.bytes[..STATUSES].fill_with(|| random.pick(&[0, 0, 1, 1, 2, 3]));
    lists.bytes[STATUSES..CHORDS].fill_with(|| random.pick(&[PENDING, PENDING, PENDING, CLAIMED]));
    lists.links[UNITS..].fill_with(|| random.pick(&[0, 1, u16::MAX]));
    lists.keys[..DAYS].fill_with(|| random.below(3) as u32);
    lists.keys[DAYS..CLOSE_DAY].fill_with(|| random.below(4) as u32);
    lists.keys[CLOSE_DAY] = random.pick(&[0, 2, u32::MAX]);
}

/// A day closed or none, and a day as messages have it in the close day's place.
pub fn put_close(lists: &mut Lists, random: &mut Random) {
    let of_message = lists.keys[DAYS + place(lists.board[0], random)];
    lists.board[HAS_CLOSE] = random.below(2) as u16;
    lists.keys[CLOSE_DAY] = random.pick(&[0, 1, 2, of_message, of_message, u32::MAX]);
}

/// As many matches as a board takes, or one fewer.
pub fn many_matches(lists: &mut Lists, random: &mut Random, table: &Table) {
    lists.board[1] = (MESSAGES - random.below(2)) as u16;
    let messages = usize::from(lists.board[0]).min(MESSAGES);
    lists.bytes[CHORDS..].fill_with(|| random.below(table.chord_count.into()) as u8);
    lists.links[MEMBERS..UNITS].fill_with(|| random.below(messages) as u16);
}

pub fn change_message(lists: &mut Lists, random: &mut Random, table: &Table) {
    let (messages, matches) = (usize::from(lists.board[0]).min(MESSAGES), usize::from(lists.board[1]));
    if messages == 0 {
        return;
    }
    let at = random.below(messages);
    match random.below(8) {
        0 => lists.bytes[at] = random.below(table.channel_count.into()) as u8,
        1 => lists.keys[at] = random.below(3) as u32,
        2 => lists.links[at] = random.below(matches + 1) as u16,
        3 => lists.links[WAKERS + at] = random.below(messages + 1) as u16,
        4 => lists.keys[DAYS + at] = random.below(3) as u32,
        5 => lists.links[UNITS + at] = random.below(3) as u16,
        6 => {
            lists.bytes[STATUSES + at] = random.below(4) as u8;
            lists.links[WAKERS + at] = 1 + random.below(messages) as u16;
            lists.links[at] = matches.min(1 + random.below(MESSAGES)) as u16;
        }
        _ => lists.bytes[STATUSES + at] = random.below(4) as u8,
    }
}

pub fn change_sender(lists: &mut Lists, random: &mut Random, table: &Table, sender: usize) {
    let (messages, matches) = (usize::from(lists.board[0]).clamp(1, MESSAGES), usize::from(lists.board[1]));
    let owned_by_other = lists.board[2 + SENDER_NUMBERS * random.below(32) + 2];
    let numbers = &mut lists.board[2 + SENDER_NUMBERS * sender..][..SENDER_NUMBERS];
    let message = random.below(messages) as u16;
    match random.below(13) {
        0 => numbers[0] = random.below(3) as u16,
        1 => numbers[1] = random.below(2) as u16,
        2 => numbers[2] = message + 1,
        12 => numbers[2] = owned_by_other,
        3 => numbers[3] = if random.chance(30) { 0 } else { message + 1 },
        4 => numbers[4 + random.below(2)] = random.below(matches + 1) as u16,
        5 => numbers[6] = numbers[2 + random.below(2)].saturating_sub(1),
        6 => numbers[7] = random.below(usize::from(table.chord_count) + 1) as u16,
        7 | 8 => put_phase(numbers, random, matches),
        9 => numbers[11] = random.below(2) as u16,
        10 => numbers[12] = random.pick(&[0, 1, 2, 15, 16, 17, 255, 65_535]),
        _ => numbers[13 + random.below(8)] = message,
    }
}

fn put_phase(numbers: &mut [u16], random: &mut Random, matches: usize) {
    numbers[8] = random.below(10) as u16;
    (numbers[9], numbers[10]) = (random.below(8) as u16, 0);
    match numbers[8] {
        2 => numbers[10] = random.below(9) as u16,
        3 => numbers[10] = random.below(matches + 1) as u16,
        5 | 7 | 8 => numbers[9] = 0,
        _ => {}
    }
    if random.chance(5) {
        let wild = [0, 1, 9, 10, 11, 255, 256, 65_535];
        numbers[8 + random.below(3)] = random.pick(&wild);
    }
}

/// A job at some place of a chord, with messages of its channels; its own message may be another than the one in hand,
/// and the chosen ones may be other senders' own.
pub fn put_job(lists: &mut Lists, random: &mut Random, table: &Table, sender: usize) {
    let (messages, matches) = (usize::from(lists.board[0]).min(MESSAGES), usize::from(lists.board[1]));
    let number = random.below(table.chord_count.into()) as u8;
    let members = table.chord(number).members();
    let mut chosen = [0; 8];
    for (message, &channel) in chosen.iter_mut().zip(members) {
        *message = if random.chance(40) { others_own(lists, random) } else { random.below(messages) as u16 };
        if random.chance(80) {
            lists.bytes[usize::from(*message)] = channel;
        }
    }
    if random.chance(50) {
        let own = chosen[random.below(members.len())];
        give_to_idle(lists, random, sender, own);
    }
    let subject = chosen[random.below(members.len())];
    let own = if random.chance(50) { subject } else { chosen[random.below(members.len())] };
    let numbers = &mut lists.board[2 + SENDER_NUMBERS * sender..][..SENDER_NUMBERS];
    numbers[0] = 1;
    numbers[2] = own + 1;
    numbers[3] = if own == subject && random.chance(50) { numbers[3] } else { subject + 1 };
    (numbers[6], numbers[7]) = (subject, number.into());
    numbers[13..].copy_from_slice(&chosen);
    put_phase(numbers, random, matches);
    if ![5, 7, 8].contains(&numbers[8]) {
        numbers[9] = random.below(members.len()) as u16;
    }
}

/// A message that a sender, not idle, owns.
fn others_own(lists: &Lists, random: &mut Random) -> u16 {
    let owned = |sender: &Sender| sender.own.filter(|_| sender.state != State::Idle);
    let owned: Vec<u16> = senders(lists).iter().filter_map(owned).filter(|&own| own < lists.board[0]).collect();
    if owned.is_empty() { 0 } else { random.pick(&owned) }
}

/// An idle sender may still hold the number of a message that another owns.
fn give_to_idle(lists: &mut Lists, random: &mut Random, except: usize, message: u16) {
    let senders = senders(lists);
    let idle = |i: &usize| *i != except && senders[*i].state == State::Idle;
    let idle: Vec<usize> = (0..senders.len()).filter(idle).collect();
    if !idle.is_empty() {
        lists.board[2 + SENDER_NUMBERS * random.pick(&idle) + 2] = message + 1;
    }
}
