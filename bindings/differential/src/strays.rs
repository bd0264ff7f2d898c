//! Boards that no schedule reaches: sound ones, damaged ones, damaged tables, lists of another length.

use crate::calls::{Call, Read, refused};
use crate::changes;
use crate::closes::close_day;
use crate::edited;
use crate::habits::odd_call;
use crate::invariant::senders;
use crate::openings;
use crate::pair::{Checked, Pair};
use crate::plain_rust::{Reference, Verdict};
use crate::random::{Random, damage, put_last_byte};
use crate::recounts;
use crate::seen::{LENGTHS, LISTS, PARTS, ROWS, WITHOUT, last_byte_of};
use reference::board::MESSAGES;
use reference::calls::CLOSE;
use reference::{COUNTS, HAS_CLOSE, Lists, NUMBERS, RESTS, Rows, SENDER_NUMBERS, Sent, Table};

/// An opened board's lent lists may hold anything: zeros, what could be messages, any numbers.
pub fn lent_anything(random: &mut Random) -> Lists {
    let mut lists = Lists::default();
    match random.below(4) {
        0 => {}
        1 => changes::put_leftovers(&mut lists, random),
        _ => {
            lists.board.fill_with(|| random.next() as u16);
            lists.bytes.fill_with(|| random.next() as u8);
            lists.links.fill_with(|| random.next() as u16);
            lists.keys.fill_with(|| random.next() as u32);
            lists.cents.fill_with(|| random.next() as i64);
        }
    }
    lists
}

/// Every read, with numbers about the counts, and with enough and too little room.
pub fn compare_reads(pair: &mut Pair, random: &mut Random) -> Checked<()> {
    let (messages, matches) = (pair.ours.board[0], pair.ours.board[1]);
    let message = random.below(usize::from(messages) + 2) as u16;
    let number = random.below(usize::from(matches) + 2) as u16;
    let sender = random.below(34) as u16;
    for read in [Read::Message(message), Read::Match(number), Read::Reply(sender), Read::Quiet] {
        let (refusal, _) = pair.read(read, read.len() + random.below(2))?;
        if refusal == 0 {
            expect_number(31, pair.read(read, read.len() - 1)?.0)?;
        }
    }
    pair.read(Read::Message(u16::MAX), 8)?;
    pair.read(Read::Match(u16::MAX), 11)?;
    pair.read(Read::Reply(u16::MAX), 1)?;
    Ok(())
}

/// Leaves the schedule for a few calls, and comes back.
pub fn excursion(pair: &mut Pair, random: &mut Random) -> Checked<()> {
    let (lists, theirs, table) = (pair.ours.clone(), pair.theirs.clone(), pair.table.clone());
    match random.below(15) {
        0 => damaged_table(pair, random),
        1 => another_length(pair, random),
        2 => any_replay(pair, random),
        3..=5 => one_number_changed(pair, random),
        6 => recounts::excursion(pair, random),
        7 => openings::excursion(pair, random),
        8 => edited::excursion(pair, random),
        _ => unreached_board(pair, random),
    }
    .map_err(|difference| format!("away from the schedule: {difference}"))?;
    (pair.ours, pair.theirs, pair.table) = (lists, theirs, table);
    Ok(())
}

/// A call by the favoured sender, by one with work to do, or by any.
pub fn random_call(random: &mut Random, table: &Table, lists: &Lists, favoured: usize) -> Call {
    let senders = senders(lists);
    let busy: Vec<usize> = (0..senders.len()).filter(|&i| !senders[i].at_rest()).collect();
    let sender = match random.below(10) {
        0..5 => favoured,
        5..9 if !busy.is_empty() => random.pick(&busy),
        _ => random.below(32),
    } as u16;
    match random.below(20) {
        0 => odd_call(random, table),
        1..=3 => {
            let (channel, property) = (random.below(table.channel_count.into()) as u16, random.below(2) as u32);
            let (day, unit) = (random.below(3) as u32, random.pick(&[0, 1, u16::MAX]));
            Call::Add { sender, sent: Sent { channel, property, cents: 1, day, unit } }
        }
        4 => Call::Close { day: random_close_day(random, lists) },
        _ => Call::Step { sender },
    }
}

fn random_close_day(random: &mut Random, lists: &Lists) -> u32 {
    let closed = close_day(lists).unwrap_or(1);
    random.pick(&[0, 1, 2, closed.saturating_sub(1), closed, closed.saturating_add(1), u32::MAX])
}

fn damaged_table(pair: &mut Pair, random: &mut Random) -> Checked<()> {
    let last_byte = if random.chance(40) { put_last_byte(&mut pair.table, random) } else { None };
    if last_byte.is_none() {
        damage(&mut pair.table, random);
    }
    let lists = pair.ours.clone();
    pair.set(&lists);
    let opened = pair.open(pair.table.clone(), None)?;
    pair.set(&lists);
    pair.tally.seen.note(if opened == 0 { "tables accepted" } else { "tables refused" });
    if let Some(byte) = last_byte {
        expect_number(if byte > 2 { 5 } else { 0 }, opened)?;
        pair.tally.seen.note(last_byte_of(byte));
    }
    let step = Call::Step { sender: random.below(33) as u16 };
    for call in [step, Call::Close { day: random.next() as u32 }, step] {
        let answer = pair.call(call)?;
        pair.tally.damaged += 1;
        if opened != 0 && answer != refused(opened.into()) {
            return Err(format!("a table refused {opened} is answered {answer}"));
        }
    }
    compare_reads(pair, random)?;
    pair.replay(&Rows::of(&[Call::Step { sender: 0 }]), 1).map(|_| ())
}

/// A replay of any numbers as they come, and one of whose lists one has another length.
fn any_replay(pair: &mut Pair, random: &mut Random) -> Checked<()> {
    let table = pair.parsed().ok_or("the table is refused")?;
    let count = random.below(40);
    let calls: Vec<Call> = (0..count).map(|_| random_call(random, &table, &pair.ours, 1)).collect();
    let mut rows = Rows::of(&calls);
    for kind in rows.calls.iter_mut().step_by(4) {
        let any = random.next() as u16;
        *kind = if random.chance(20) { random.pick(&[CLOSE, 3, any]) } else { *kind };
    }
    let lists = pair.ours.clone();
    let (number, _) = pair.replay(&rows, count)?;
    if number != 0 {
        return Err(format!("a replay of any numbers answered {number}"));
    }
    pair.set(&lists);
    let (list, length) = (random.below(ROWS.len()), if count == 0 { 0 } else { random.below(LENGTHS.len()) });
    match list {
        0 => resize(&mut rows.calls, length, count),
        1 => resize(&mut rows.numbers, length, count),
        _ => resize(&mut rows.amounts, length, count),
    }
    pair.tally.seen.note(format!("{} {}", ROWS[list], LENGTHS[length]));
    let (number, _) = pair.replay(&rows, random.pick(&[0, count, count + 1]))?;
    if number == 30 { Ok(()) } else { Err(format!("a replay of uneven rows answered {number}")) }
}

/// One of the lent lists of another length.
fn another_length(pair: &mut Pair, random: &mut Random) -> Checked<()> {
    let mut lists = pair.ours.clone();
    let (list, length) = (random.below(LISTS.len() + WITHOUT.len()), random.below(LENGTHS.len()));
    match list {
        0 => resize(&mut lists.board, length, SENDER_NUMBERS),
        1 => resize(&mut lists.bytes, length, MESSAGES),
        2 => resize(&mut lists.links, length, MESSAGES),
        3 => resize(&mut lists.keys, length, MESSAGES),
        4 => resize(&mut lists.cents, length, MESSAGES),
        5 => lists.board.truncate(RESTS),
        6 => lists.board.truncate(COUNTS),
        _ => {
            lists.board.truncate(HAS_CLOSE);
            lists.keys.pop();
        }
    }
    let without = || WITHOUT[list - LISTS.len()].to_string();
    let what = LISTS.get(list).map_or_else(without, |list| format!("{list} {}", LENGTHS[length]));
    pair.set(&lists);
    expect_refused(pair).map_err(|difference| format!("{what}: {difference}"))?;
    pair.tally.seen.note(&what);
    let (opened, expected) = (pair.open(pair.table.clone(), None)?, if lists.board.len() == NUMBERS { 0 } else { 30 });
    if opened == expected { Ok(()) } else { Err(format!("{what}: open answered {opened}")) }
}

/// Gives a list one of `LENGTHS`; its parts are of `part` numbers.
fn resize<T: Clone + Default>(list: &mut Vec<T>, length: usize, part: usize) {
    list.resize([list.len() + 1, list.len() - 1, 0, list.len() - part][length], T::default());
}

/// Every call is refused 30 before anything else that is wrong with it.
pub fn expect_refused(pair: &mut Pair) -> Checked<()> {
    expect_no_board(pair, Call::Step { sender: 0 })?;
    expect_no_board(pair, Call::Close { day: 0 })?;
    let sent = Sent { channel: 99, cents: i64::MAX, ..Sent::default() };
    expect_no_board(pair, Call::Add { sender: 40, sent })?;
    for read in [Read::Message(u16::MAX), Read::Match(u16::MAX), Read::Reply(u16::MAX), Read::Quiet] {
        expect_number(30, pair.read(read, 0)?.0)?;
    }
    expect_number(30, pair.replay(&Rows::of(&[]), 0)?.0)
}

pub fn expect_number(expected: u8, number: u8) -> Checked<()> {
    if number == expected { Ok(()) } else { Err(format!("answered {number} and not {expected}")) }
}

fn expect_no_board(pair: &mut Pair, call: Call) -> Checked<()> {
    let answer = pair.call(call)?;
    pair.tally.damaged += 1;
    if answer == refused(30) { Ok(()) } else { Err(format!("{call:?} on no sound board is answered {answer}")) }
}

/// One number anywhere changed to any value.
fn one_number_changed(pair: &mut Pair, random: &mut Random) -> Checked<()> {
    let mut lists = pair.ours.clone();
    let (part, what) = changes::change_any(&mut lists, random);
    let (part, sender) = (PARTS[part], random.below(32));
    let played = play_on(pair, random, &lists, sender, 3);
    let sound = played.map_err(|difference| format!("{part} {what}: {difference}"))?;
    pair.tally.seen.note(format!("{part} {}", if sound { "accepted" } else { "refused" }));
    Ok(())
}

/// Calls on a board as given, most of them by one sender. The reference says whether it is sound.
fn play_on(pair: &mut Pair, random: &mut Random, lists: &Lists, sender: usize, most: usize) -> Checked<bool> {
    let table = pair.parsed().ok_or("the table is refused")?;
    let mut judge = Reference::default();
    pair.set(lists);
    let verdict = judge.verdict(&table, lists);
    if verdict != Verdict::Sound {
        let no_board = verdict == Verdict::NoBoard;
        pair.tally.seen.note(if no_board { "numbers of no board" } else { "numbers of no sound board" });
        expect_no_board(pair, random_call(random, &table, &pair.ours, sender))?;
        return expect_number(30, pair.read(Read::Quiet, 1)?.0).map(|()| false);
    }
    for _ in 0..most {
        pair.call(random_call(random, &table, &pair.ours, sender))?;
        pair.tally.unreached += 1;
        if judge.verdict(&table, &pair.ours) != Verdict::Sound {
            return Err("a call left a sound board unsound".to_string());
        }
    }
    compare_reads(pair, random).map(|()| true)
}

/// Some numbers of one sender and of the messages changed to likely values.
fn unreached_board(pair: &mut Pair, random: &mut Random) -> Checked<()> {
    let table = pair.parsed().ok_or("the table is refused")?;
    let mut lists = pair.ours.clone();
    if random.chance(15) && table.chord_count > 0 && lists.board[0] > 0 {
        changes::many_matches(&mut lists, random, &table);
    }
    let sender = random.below(32);
    if random.chance(40) && table.chord_count > 0 && lists.board[0] > 0 {
        changes::put_job(&mut lists, random, &table, sender);
    }
    if random.chance(25) {
        changes::put_close(&mut lists, random);
    }
    for _ in 0..random.below(4) {
        if random.chance(65) {
            changes::change_sender(&mut lists, random, &table, sender);
        } else {
            changes::change_message(&mut lists, random, &table);
        }
    }
    let numbers = lists.board[2 + SENDER_NUMBERS * sender..][..SENDER_NUMBERS].to_vec();
    let most = 2 + random.below(14);
    let played = play_on(pair, random, &lists, sender, most);
    played.map(|_| ()).map_err(|difference| format!("sender {sender} with numbers {numbers:?}: {difference}"))
}
