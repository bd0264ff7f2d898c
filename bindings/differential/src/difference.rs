//! How the lists of two boards differ.

use reference::lists::{CHORDS, CLOSE_DAY, DAYS, MEMBERS, STATUSES, UNITS, WAKERS};
use reference::{COUNTS, HAS_CLOSE, Lists, NUMBERS, Phase, RESTS, SENDER_NUMBERS, Sender, State, Table};
use std::fmt::Display;

/// The first difference in what the scope paper determines; without a table, in any number.
pub fn difference(ours: &Lists, theirs: &Lists, table: Option<&Table>) -> Option<String> {
    if ours == theirs {
        return None;
    }
    let open = |at: usize| table.is_some_and(|table| is_open(table, ours, at));
    first(byte_name, &ours.bytes, &theirs.bytes, |_| false)
        .or_else(|| first(link_name, &ours.links, &theirs.links, open))
        .or_else(|| first(key_name, &ours.keys, &theirs.keys, |_| false))
        .or_else(|| first(|at| format!("cents of message {at}"), &ours.cents, &theirs.cents, |_| false))
        .or_else(|| boards_differ(&ours.board, &theirs.board, table))
}

fn byte_name(at: usize) -> String {
    match at {
        CHORDS.. => format!("chord of match {}", at - CHORDS),
        STATUSES.. => format!("status of message {}", at - STATUSES),
        _ => format!("channel of message {at}"),
    }
}

fn link_name(at: usize) -> String {
    match at {
        UNITS.. => format!("unit of message {}", at - UNITS),
        MEMBERS.. => format!("match {} place {}", (at - MEMBERS) / 8, at % 8),
        WAKERS.. => format!("waker of message {}", at - WAKERS),
        _ => format!("match of message {at}"),
    }
}

fn key_name(at: usize) -> String {
    match at {
        CLOSE_DAY.. => "close day".to_string(),
        DAYS.. => format!("day of message {}", at - DAYS),
        _ => format!("property of message {at}"),
    }
}

/// Whether the scope paper leaves that link open: a counted match's, past its chord's members.
fn is_open(table: &Table, lists: &Lists, at: usize) -> bool {
    let Some(place) = at.checked_sub(MEMBERS).filter(|_| at < UNITS) else { return false };
    let (number, matches) = (place / 8, lists.board.get(1).copied().unwrap_or(0));
    let chord = lists.bytes.get(CHORDS + number).copied().unwrap_or(u8::MAX);
    number < matches.into() && chord < table.chord_count && place % 8 >= table.chord(chord).len.into()
}

fn boards_differ(ours: &[u16], theirs: &[u16], table: Option<&Table>) -> Option<String> {
    let plain = |at: usize| format!("board number {at}");
    if table.is_none() || ours.len() != NUMBERS || theirs.len() != NUMBERS {
        return first(plain, ours, theirs, |_| false);
    }
    let part = |board: &[u16], i: usize| board[2 + SENDER_NUMBERS * i..][..SENDER_NUMBERS].to_vec();
    let senders_differ = |i: usize| {
        let (one, two) = (part(ours, i), part(theirs, i));
        let name = |at: usize| format!("sender {i} number {at}");
        let what = first(name, &determined(table, &one), &determined(table, &two), |_| false);
        what.map(|what| format!("{what} of {one:?} and {two:?}"))
    };
    let of_close = |_| "whether a day is closed".to_string();
    let of_counts = |i: usize| format!("how many messages sender {i} has added");
    let of_rests = |at: usize| format!("entry {} of the backoff table", at + 1);
    first(plain, &ours[..2], &theirs[..2], |_| false)
        .or_else(|| first(of_close, &ours[HAS_CLOSE..COUNTS], &theirs[HAS_CLOSE..COUNTS], |_| false))
        .or_else(|| first(of_counts, &ours[COUNTS..RESTS], &theirs[COUNTS..RESTS], |_| false))
        .or_else(|| first(of_rests, &ours[RESTS..], &theirs[RESTS..], |_| false))
        .or_else(|| (0..32).find_map(senders_differ))
}

/// A sender's numbers with 0 for what the scope paper leaves open.
fn determined(table: Option<&Table>, numbers: &[u16]) -> Vec<u16> {
    let (Some(table), Some(mut sender)) = (table, Sender::from_numbers(numbers)) else { return numbers.to_vec() };
    let chosen = match (sender.state, sender.phase) {
        (State::Idle | State::Blocked, _) => {
            let Sender { state, signalled, own, waker, reply, matched, .. } = sender;
            sender = Sender { state, signalled, own, waker, reply, matched, ..Sender::default() };
            0
        }
        (_, Phase::PassEnd | Phase::Backoff(_)) => {
            sender.chord = 0;
            0
        }
        (_, Phase::Look(at)) => at.into(),
        _ if sender.chord < table.chord_count => table.chord(sender.chord).len.into(),
        _ => 8,
    };
    sender.chosen[chosen.min(8)..].fill(0);
    sender.retries = sender.retries.min(16);
    sender.to_numbers().to_vec()
}

/// The first difference of two lists, at no place that is open.
fn first<T: PartialEq + Display>(
    name: impl Fn(usize) -> String,
    ours: &[T],
    theirs: &[T],
    open: impl Fn(usize) -> bool,
) -> Option<String> {
    if ours.len() != theirs.len() {
        return Some(format!("{} and on: lengths {} and {}", name(0), ours.len(), theirs.len()));
    }
    let at = (0..ours.len()).find(|&at| ours[at] != theirs[at] && !open(at));
    at.map(|at| format!("{}: {} and {}", name(at), ours[at], theirs[at]))
}
