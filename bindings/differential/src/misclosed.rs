//! Closes, and adds of closed days, with a fault put in.

use crate::calls::refused;
use crate::closes::{CLOSED, close_day, is_wild};
use reference::board::SENDERS;
use reference::calls::CLOSE;
use reference::lists::CLOSE_DAY;
use reference::{HAS_CLOSE, Lists, Rows, SENDER_NUMBERS, Sent};

/// An add that was answered so is refused by another number, or refused after all.
pub fn refuse_wrongly(fault: &str, before: Lists, lists: &mut Lists, sent: Sent, answer: u32) -> u32 {
    let is_closed = close_day(&before).is_some_and(|day| sent.day <= day);
    let is_accepted = answer >> 16 == 0 && close_day(&before).is_none();
    match fault {
        "cents-first" if answer == refused(19) && is_wild(sent.cents) => refused(11),
        "channel-last" if answer == refused(10) && is_closed => refused(19),
        "none-as-0" if is_accepted && sent.day == 0 => refuse(before, lists),
        "none-as-any" if is_accepted && sent.day <= before.keys[CLOSE_DAY] => refuse(before, lists),
        _ => answer,
    }
}

fn refuse(before: Lists, lists: &mut Lists) -> u32 {
    *lists = before;
    refused(19)
}

/// A replayed close is refused by the sender in its row.
pub fn refuse_by_sender(rows: &Rows, answers: &mut [u32]) {
    let rows = rows.calls.chunks_exact(4);
    for (_, answer) in rows.zip(answers).filter(|(row, _)| row[0] == CLOSE && usize::from(row[1]) >= SENDERS) {
        *answer = refused(8);
    }
}

/// A close that was answered so: one of an earlier day is accepted, one of the close day refused; it clears a signal,
/// or leaves the close day unwritten.
pub fn close_wrongly(fault: &str, before: &Lists, lists: &mut Lists, day: u32, answer: u32) -> u32 {
    match fault {
        "earlier-close" if answer == refused(20) => {
            lists.keys[CLOSE_DAY] = day;
            CLOSED
        }
        "equal-close" if answer == CLOSED && close_day(before) == Some(day) => refused(20),
        "close-signal" if answer == CLOSED => {
            let mut signals = lists.board[..HAS_CLOSE].iter_mut().skip(2 + 1).step_by(SENDER_NUMBERS);
            signals.find(|signal| **signal == 1).into_iter().for_each(|signal| *signal = 0);
            answer
        }
        "unwritten-close" if answer == CLOSED => {
            lists.keys[CLOSE_DAY] = before.keys[CLOSE_DAY];
            answer
        }
        _ => answer,
    }
}
