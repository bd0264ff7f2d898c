//! Random schedules over random accepted tables, with the pool, the invariant and the laws of closes, shares and rests
//! beside them.

use crate::backoffs::{self, PAST_BUILT_IN};
use crate::calls::{Call, Read, refused};
use crate::closes::{self, Books, MATCHED_CLOSED, close_day};
use crate::difference::difference;
use crate::habits::Habits;
use crate::invariant::{Pool, senders};
use crate::ledger::Ledger;
use crate::looks::Look;
use crate::pair::{Checked, Pair};
use crate::random::Random;
use crate::shares;
use crate::strays;
use crate::waits::Waits;
use reference::board::MESSAGES;
use reference::{Lists, Rows, Sender, Table};

const ITEM: u32 = 0;
const MATCHED: u32 = 6;

/// What a schedule's calls and answers alone say of its board.
struct Laws {
    pool: Pool,
    books: Books,
    ledger: Ledger,
    waits: Waits,
}

/// The schedule of that number, on a table of its own; with excursions to boards that it does not reach.
pub fn run(pair: &mut Pair, random: &mut Random, number: u64, most: u64) -> Checked<()> {
    let mut habits = Habits::new(random, number);
    let (table, mut laws) = open(pair, random, &habits)?;
    let opened = pair.ours.clone();
    let (mut calls, mut answers) = (Vec::new(), Vec::new());
    let draining = if random.chance(50) { habits.length / 3 } else { 0 };
    for turn in 0..habits.length {
        habits.draining = turn >= habits.length - draining;
        let call = habits.choose(random, &table, &pair.ours);
        answers.push(play(pair, &mut laws, &table, call)?);
        calls.push(call);
        if random.chance(2) {
            strays::compare_reads(pair, random)?;
        }
        if random.chance(10) {
            strays::excursion(pair, random)?;
        }
        let quiet = senders(&pair.ours).iter().all(Sender::at_rest);
        let takes_no_more = random.chance(weariness(&pair.ours));
        if pair.tally.calls >= most || (quiet && (habits.draining || takes_no_more)) {
            break;
        }
    }
    play_again(pair, &opened, &calls, &answers)
}

/// A board with a table of its own, and often a backoff table, opened in lists that hold anything.
fn open(pair: &mut Pair, random: &mut Random, habits: &Habits) -> Checked<(Table, Laws)> {
    let rests = habits.kind.bytes(random);
    pair.set(&strays::lent_anything(random));
    pair.open(habits.table(random), rests.as_deref())?;
    let table = pair.parsed().ok_or("a random table is refused")?;
    pair.tally.seen.note(backoffs::opened("opened", habits.kind));
    let waits = Waits::of(rests.as_deref())?;
    Ok((table, Laws { pool: Pool::default(), books: Books::default(), ledger: Ledger::default(), waits }))
}

/// How soon a schedule ends on a board that takes no more messages, in percent.
fn weariness(lists: &Lists) -> usize {
    let is_full = usize::from(lists.board[0]) == MESSAGES;
    if close_day(lists) == Some(u32::MAX) { 10 } else { 2 * usize::from(is_full) }
}

/// A call of the schedule, counted by what it decided and held to the pool, the invariant and the laws.
fn play(pair: &mut Pair, laws: &mut Laws, table: &Table, call: Call) -> Checked<u32> {
    let look = Look::before(table, &pair.ours, call);
    let answer = pair.call(call)?;
    pair.count(answer);
    let looked = look.iter().flat_map(|look| look.decided(answer));
    let by_closes = closes::decided(pair.before(), call, answer);
    let by_shares = shares::decided(pair.before(), call, answer);
    let decided: Vec<&str> = looked.chain(by_closes).chain(by_shares).collect();
    decided.into_iter().for_each(|what| pair.tally.seen.note(what));
    backoffs::decided(pair.before(), call, answer).into_iter().for_each(|what| pair.tally.seen.note(what));
    if let (Some(sender), true) = (call.sender(), answer == refused(26)) {
        pair.tally.seen.note(shares::refused_to(sender));
    }
    if laws.books.check(&pair.ours, call, answer)? {
        pair.tally.seen.note(closes::LAWFUL);
    }
    if laws.ledger.check(&pair.ours, call, answer)? {
        pair.tally.seen.note(shares::LAWFUL);
    }
    if laws.waits.check(&pair.ours, call, answer)? {
        pair.tally.seen.note(PAST_BUILT_IN);
    }
    feed(pair, &mut laws.pool, table, call, answer)?;
    laws.pool.check(table, &pair.ours).map(|()| answer)
}

/// The pool is fed the call, its answer, and the match that was made.
fn feed(pair: &mut Pair, pool: &mut Pool, table: &Table, call: Call, answer: u32) -> Checked<()> {
    let value = answer as u16;
    match (answer >> 16, call) {
        (ITEM, Call::Add { sent, .. }) => pool.add(value, sent),
        (MATCHED, _) => {
            let (_, read) = pair.read(Read::Match(value), 11)?;
            if closes::is_of_closed(&pair.ours, &read[3..]) {
                pair.tally.seen.note(MATCHED_CLOSED);
            }
            pool.take(value, table, &read)
        }
        _ => Ok(()),
    }
}

/// A replay from the opened board answers and leaves the same as the calls did.
fn play_again(pair: &mut Pair, opened: &Lists, calls: &[Call], answers: &[u32]) -> Checked<()> {
    let left = pair.ours.clone();
    let rows = Rows::of(calls);
    pair.set(opened);
    let (number, _) = pair.replay(&rows, calls.len() - 1)?;
    if number != 31 {
        return Err(format!("a replay with too little room answered {number}"));
    }
    let (number, again) = pair.replay(&rows, calls.len() + 1)?;
    if number != 0 || again[..calls.len()] != *answers || again[calls.len()] != u32::MAX {
        return Err(format!("a replay answered {number} or otherwise than its calls"));
    }
    difference(&pair.ours, &left, pair.parsed().as_ref()).map_or(Ok(()), |it| Err(format!("after a replay: {it}")))
}
