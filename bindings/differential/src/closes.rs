//! Closed days in a schedule: what they decide, and the law that they stay closed.

use crate::calls::{Call, refused};
use crate::invariant::senders;
use crate::pair::Checked;
use reference::board::{MESSAGES, MOST_CENTS};
use reference::lists::{CLOSE_DAY, DAYS};
use reference::{HAS_CLOSE, Lists, Sent, State};

const ITEM: u32 = 0;
pub const CLOSED: u32 = 18 << 16;

const OF_ADDS: [&str; 10] = [
    "an add of the close day refused",
    "an add of an earlier day refused",
    "refused with cents out of range",
    "refused on a full board",
    "no such sender before it",
    "a sender not idle before it",
    "no such channel before it",
    "an add of the day after accepted",
    "an add of day 0 accepted with none closed",
    "an add accepted up to a number that is no close day",
];
const OF_CLOSES: [&str; 9] = [
    "a first day closed",
    "a first day closed below a number that is no close day",
    "a later day closed",
    "the close day closed again",
    "an earlier day refused",
    "day 0 closed",
    "the last day closed",
    "a close amid jobs",
    "a close beside a signal",
];
pub const MATCHED_CLOSED: &str = "a message of a closed day matched";
pub const REPLAYED: [&str; 2] = ["a replayed close accepted", "a replayed close refused"];
/// An add to which the law applies.
pub const LAWFUL: &str = "an add of a day that was closed before";

/// All that closed days can decide.
pub fn by_closes() -> Vec<String> {
    let rest = [MATCHED_CLOSED, REPLAYED[0], REPLAYED[1], LAWFUL];
    OF_ADDS.iter().chain(&OF_CLOSES).chain(&rest).map(|what| what.to_string()).collect()
}

/// The close day that lists hold.
pub fn close_day(lists: &Lists) -> Option<u32> {
    let closed = lists.keys.get(CLOSE_DAY).copied();
    closed.filter(|_| lists.board.get(HAS_CLOSE) == Some(&1))
}

fn is_closed(close_day: Option<u32>, day: u32) -> bool {
    close_day.is_some_and(|close_day| day <= close_day)
}

pub fn is_wild(cents: i64) -> bool {
    !(-MOST_CENTS..=MOST_CENTS).contains(&cents)
}

/// Which of `OF_ADDS` or `OF_CLOSES` a call on those lists is, with that answer.
pub fn decided(lists: &Lists, call: Call, answer: u32) -> Vec<&'static str> {
    let named = |names: &[&'static str], are: &[bool]| {
        names.iter().zip(are).filter(|(_, is)| **is).map(|(name, _)| *name).collect()
    };
    match call {
        Call::Add { sent, .. } => named(&OF_ADDS, &of_add(lists, sent, answer)),
        Call::Close { day } => named(&OF_CLOSES, &of_close(lists, day, answer)),
        Call::Step { .. } => Vec::new(),
    }
}

fn of_add(lists: &Lists, sent: Sent, answer: u32) -> [bool; OF_ADDS.len()] {
    let (present, late, taken) = (close_day(lists), answer == refused(19), answer >> 16 == ITEM);
    let before_it = |number: u32| is_closed(present, sent.day) && answer == refused(number);
    [
        late && present == Some(sent.day),
        late && present > Some(sent.day),
        late && is_wild(sent.cents),
        late && usize::from(lists.board[0]) == MESSAGES,
        before_it(8),
        before_it(9),
        before_it(10),
        taken && sent.day.checked_sub(1).is_some_and(|day| present == Some(day)),
        taken && present.is_none() && sent.day == 0,
        taken && present.is_none() && sent.day <= lists.keys[CLOSE_DAY],
    ]
}

fn of_close(lists: &Lists, day: u32, answer: u32) -> [bool; OF_CLOSES.len()] {
    let (present, accepted, senders) = (close_day(lists), answer == CLOSED, senders(lists));
    [
        accepted && present.is_none(),
        accepted && present.is_none() && day < lists.keys[CLOSE_DAY],
        accepted && present.is_some_and(|present| day > present),
        accepted && present == Some(day),
        answer == refused(20),
        accepted && day == 0,
        accepted && day == u32::MAX,
        accepted && senders.iter().any(|sender| sender.state == State::Working),
        accepted && senders.iter().any(|sender| sender.signalled),
    ]
}

/// Whether one of a match's messages is of a day that is closed.
pub fn is_of_closed(lists: &Lists, messages: &[i64]) -> bool {
    messages.iter().any(|&message| is_closed(close_day(lists), lists.keys[DAYS + message as usize]))
}

/// The close day by a schedule's calls and answers alone.
#[derive(Default)]
pub struct Books {
    close_day: Option<u32>,
}

impl Books {
    /// After an accepted close, adds of its day or one before it are refused 8, 9, 10 or 19, and no others 19; the
    /// board holds the close day. Whether the call is an add of a closed day.
    pub fn check(&mut self, lists: &Lists, call: Call, answer: u32) -> Checked<bool> {
        let (present, mut is_late) = (self.close_day, false);
        let is_lawful = match call {
            Call::Add { sent, .. } if is_closed(present, sent.day) => {
                is_late = true;
                [8, 9, 10, 19].map(refused).contains(&answer)
            }
            Call::Close { day } => self.close(day) == answer,
            _ => answer != refused(19) && answer != refused(20),
        };
        let holds = is_lawful && close_day(lists) == self.close_day;
        if holds { Ok(is_late) } else { Err(format!("law: {call:?} with {present:?} closed answered {answer}")) }
    }

    /// What a close of that day is to answer.
    fn close(&mut self, day: u32) -> u32 {
        if self.close_day.is_some_and(|close_day| day < close_day) {
            return refused(20);
        }
        self.close_day = Some(day);
        CLOSED
    }
}

#[cfg(test)]
mod tests {
    use super::*;

    fn closed(day: u32) -> Lists {
        let mut lists = Lists::default();
        (lists.board[HAS_CLOSE], lists.keys[CLOSE_DAY]) = (1, day);
        lists
    }

    fn add(day: u32) -> Call {
        Call::Add { sender: 0, sent: Sent { day, ..Sent::default() } }
    }

    #[test]
    fn adds_named() {
        assert_eq!(decided(&closed(30), add(30), refused(19)), OF_ADDS[..1]);
        assert_eq!(decided(&closed(30), add(29), refused(19)), OF_ADDS[1..2]);
        assert_eq!([8, 9, 10].map(|number| decided(&closed(30), add(30), refused(number))[0]), OF_ADDS[4..7]);
        assert_eq!(decided(&closed(30), add(31), refused(8)).len(), 0);
        assert_eq!(decided(&closed(30), add(31), 0), OF_ADDS[7..8]);
        assert_eq!(decided(&Lists::default(), add(0), 0), OF_ADDS[8..]);
        assert_eq!(decided(&closed(u32::MAX), add(0), 0).len(), 0);
    }

    #[test]
    fn closes_named() {
        let close = |lists: &Lists, day: u32| decided(lists, Call::Close { day }, CLOSED);
        assert_eq!(close(&Lists::default(), 5), OF_CLOSES[..1]);
        let mut none = closed(6);
        none.board[HAS_CLOSE] = 0;
        assert_eq!(close(&none, 5), OF_CLOSES[..2]);
        assert_eq!(close(&closed(4), 5), OF_CLOSES[2..3]);
        assert_eq!(close(&closed(5), 5), OF_CLOSES[3..4]);
        assert_eq!(close(&closed(0), 0), [OF_CLOSES[3], OF_CLOSES[5]]);
        assert_eq!(close(&closed(5), u32::MAX), [OF_CLOSES[2], OF_CLOSES[6]]);
        assert_eq!(decided(&closed(5), Call::Close { day: 4 }, refused(20)), OF_CLOSES[4..5]);
    }

    #[test]
    fn the_law() {
        let mut books = Books::default();
        assert_eq!(books.check(&Lists::default(), add(0), 0), Ok(false));
        assert!(books.check(&Lists::default(), Call::Close { day: 5 }, refused(20)).is_err());
        assert_eq!(books.check(&closed(5), Call::Close { day: 5 }, CLOSED), Ok(false));
        for number in [8, 9, 10, 19] {
            assert_eq!(books.check(&closed(5), add(5), refused(number)), Ok(true));
        }
        assert!([0, refused(11), refused(26)].iter().all(|&answer| books.check(&closed(5), add(5), answer).is_err()));
        assert_eq!(books.check(&closed(5), add(6), 0), Ok(false));
        assert!(books.check(&closed(5), add(6), refused(19)).is_err());
        assert!(books.check(&closed(6), add(6), 0).is_err());
        assert!(books.check(&closed(4), Call::Close { day: 4 }, CLOSED).is_err());
    }
}
