//! What an accepted call may not alter, whatever else it does. An add or a step: the rows of other senders, but for
//! their signals, the eight numbers of every match that was recorded before it, what messages were sent with, in every
//! record but that of a message that it adds, what the senders have added, but for one more of a sender that adds, the
//! backoff table, and the close day. A close: any other number.

use crate::backoffs::rests;
use crate::calls::Call;
use crate::difference::difference;
use crate::invariant::sent_at;
use crate::shares::counts;
use reference::board::MESSAGES;
use reference::lists::{CLOSE_DAY, MEMBERS, STATUSES, UNITS};
use reference::{HAS_CLOSE, Lists, SENDER_NUMBERS};

/// The first of these that differs after the call.
pub fn altered(before: &Lists, after: &Lists, call: Call) -> Option<String> {
    let Some(caller) = call.sender() else { return beside_the_close_day(before, after) };
    other_sender(&before.board, &after.board, caller)
        .or_else(|| recorded_match(before, after))
        .or_else(|| other_message(before, after))
        .or_else(|| other_count(before, after, call))
        .or_else(|| (rests(before) != rests(after)).then(|| "the backoff table".to_string()))
        .or_else(|| (close_numbers(before) != close_numbers(after)).then(|| "the close day".to_string()))
}

fn beside_the_close_day(before: &Lists, after: &Lists) -> Option<String> {
    let mut after = after.clone();
    (after.board[HAS_CLOSE], after.keys[CLOSE_DAY]) = close_numbers(before);
    difference(before, &after, None)
}

fn close_numbers(lists: &Lists) -> (u16, u32) {
    (lists.board[HAS_CLOSE], lists.keys[CLOSE_DAY])
}

fn recorded_match(before: &Lists, after: &Lists) -> Option<String> {
    let recorded = 8 * usize::from(before.board[1]);
    let links = |lists: &Lists| lists.links[MEMBERS..][..recorded].to_vec();
    let (old, new) = (links(before), links(after));
    (0..recorded).find(|&at| old[at] != new[at]).map(|at| format!("match {} place {}", at / 8, at % 8))
}

fn other_message(before: &Lists, after: &Lists) -> Option<String> {
    if columns_sent(before) == columns_sent(after) {
        return None;
    }
    let added = usize::from(before.board[0])..usize::from(after.board[0]);
    let is_kept = |at: &usize| added.contains(at) || sent_at(before, *at) == sent_at(after, *at);
    (0..MESSAGES).find(|at| !is_kept(at)).map(|at| format!("what message {at} was sent with"))
}

fn other_count(before: &Lists, after: &Lists, call: Call) -> Option<String> {
    let adder = if let Call::Add { sender, .. } = call { Some(usize::from(sender)) } else { None };
    let wanted = |(i, count): (usize, &u16)| count + u16::from(Some(i) == adder);
    let mut wanted = counts(before).iter().enumerate().map(wanted).zip(counts(after));
    let i = wanted.position(|(wanted, &count)| wanted != count)?;
    Some(format!("how many messages sender {i} has added"))
}

/// Channels, units, properties and days, cents.
fn columns_sent(lists: &Lists) -> (&[u8], &[u16], &[u32], &[i64]) {
    (&lists.bytes[..STATUSES], &lists.links[UNITS..], &lists.keys[..CLOSE_DAY], &lists.cents)
}

fn other_sender(before: &[u16], after: &[u16], caller: usize) -> Option<String> {
    let row = |at: usize| ((at - 2) / SENDER_NUMBERS, (at - 2) % SENDER_NUMBERS);
    let is_kept = |at: usize| row(at).0 != caller && row(at).1 != 1;
    let at = (2..HAS_CLOSE).find(|&at| is_kept(at) && before[at] != after[at])?;
    Some(format!("sender {} number {}", row(at).0, row(at).1))
}

#[cfg(test)]
mod tests {
    use super::*;
    use reference::lists::DAYS;
    use reference::{COUNTS, RESTS};

    fn found_after(call: Call, alter: impl Fn(&mut Lists)) -> Option<String> {
        let mut before = Lists::default();
        before.board[1] = 1;
        let mut after = before.clone();
        alter(&mut after);
        altered(&before, &after, call)
    }

    fn found(alter: impl Fn(&mut Lists)) -> Option<String> {
        found_after(Call::Step { sender: 3 }, alter)
    }

    #[test]
    fn other_rows_and_recorded_matches_stay() {
        assert_eq!(found(|lists| lists.board[2 + 21 * 3 + 12] = 7), None);
        assert_eq!(found(|lists| lists.board[2 + 21 * 4 + 1] = 1), None);
        assert_eq!(found(|lists| lists.board[2 + 21 * 4 + 12] = 7), Some("sender 4 number 12".into()));
        assert_eq!(found(|lists| lists.links[MEMBERS + 7] = 7), Some("match 0 place 7".into()));
        assert_eq!(found(|lists| lists.links[MEMBERS + 8] = 7), None);
    }

    #[test]
    fn messages_stay_as_they_were_sent() {
        let altered = |at: usize| Some(format!("what message {at} was sent with"));
        assert_eq!(found(|lists| lists.links[UNITS] = 7), altered(0));
        assert_eq!(found(|lists| lists.links[UNITS + 1023] = 7), altered(1023));
        assert_eq!(found(|lists| lists.keys[DAYS + 5] = 7), altered(5));
        let added = |unit_at: usize| move |lists: &mut Lists| (lists.board[0], lists.links[UNITS + unit_at]) = (1, 7);
        assert_eq!(found(added(0)), None);
        assert_eq!(found(added(1)), altered(1));
    }

    #[test]
    fn an_add_counts_for_its_sender() {
        let add = Call::Add { sender: 3, sent: Default::default() };
        let count = |i: usize| move |lists: &mut Lists| lists.board[COUNTS + i] = 1;
        let altered = |i: usize| Some(format!("how many messages sender {i} has added"));
        assert_eq!([3, 4].map(|i| found_after(add, count(i))), [None, altered(3)]);
        assert_eq!(found_after(add, |_| ()), altered(3));
        assert_eq!([3, 31].map(|i| found(count(i))), [altered(3), altered(31)]);
        assert_eq!(found_after(Call::Close { day: 5 }, count(0)), Some("board number 675: 0 and 1".into()));
    }

    #[test]
    fn the_backoff_table_stays() {
        let write = |lists: &mut Lists| lists.board[RESTS + 15] = 64;
        let add = |lists: &mut Lists| {
            lists.board[COUNTS + 3] = 1;
            write(lists);
        };
        let the_table = Some("the backoff table".into());
        let sent = Default::default();
        assert_eq!((found(write), found_after(Call::Add { sender: 3, sent }, add)), (the_table.clone(), the_table));
        assert_eq!(found_after(Call::Close { day: 5 }, write), Some("board number 722: 0 and 64".into()));
    }

    #[test]
    fn a_close_alters_the_close_day_alone() {
        let close = |lists: &mut Lists| (lists.board[HAS_CLOSE], lists.keys[CLOSE_DAY]) = (1, 5);
        assert_eq!(found(close), Some("the close day".into()));
        assert_eq!(found(|lists| lists.keys[CLOSE_DAY] = 5), Some("the close day".into()));
        let after_close = |alter: fn(&mut Lists)| {
            found_after(Call::Close { day: 5 }, |lists| {
                close(lists);
                alter(lists);
            })
        };
        assert_eq!(after_close(|_| ()), None);
        assert_eq!(after_close(|lists| lists.board[2 + 21 * 4 + 1] = 1), Some("board number 87: 0 and 1".into()));
        assert_eq!(after_close(|lists| lists.keys[CLOSE_DAY - 1] = 1), Some("day of message 1023: 0 and 1".into()));
        assert_eq!(after_close(|lists| lists.cents[9] = 1), Some("cents of message 9: 0 and 1".into()));
    }
}
