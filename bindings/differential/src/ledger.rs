//! The law of shares, by a schedule's calls and answers alone: a sender's count is the number of its accepted adds, and
//! the counts sum to the messages; no sender is refused 26 before it has used its own messages, or gets more than its
//! own and the common ones; after the first 26 there are own ones only. Nothing but an add is refused 26, and nothing
//! 12.

use crate::calls::{Call, refused};
use crate::pair::Checked;
use crate::shares::{MOST, counts};
use reference::Lists;
use reference::board::{SENDERS, SHARE};

const ITEM: u32 = 0;

/// What was answered since the board was opened.
#[derive(Default)]
pub struct Ledger {
    accepted: [u16; SENDERS],
    /// Whether an add was refused 26.
    used_up: bool,
}

impl Ledger {
    /// Whether the call is an add that was accepted after a 26.
    pub fn check(&mut self, lists: &Lists, call: Call, answer: u32) -> Checked<bool> {
        let is_lawful = match call {
            Call::Add { sender, .. } if answer == refused(26) => {
                self.used_up = true;
                self.accepted.get(usize::from(sender)).is_some_and(|&count| count >= SHARE)
            }
            Call::Add { sender, .. } if answer >> 16 == ITEM => self.accept(sender.into()),
            _ => ![12, 26].map(refused).contains(&answer),
        };
        let sum: u32 = self.accepted.iter().map(|&count| u32::from(count)).sum();
        let is_kept = counts(lists) == self.accepted && sum == lists.board[0].into();
        if is_lawful && is_kept {
            return Ok(self.used_up && answer >> 16 == ITEM);
        }
        Err(format!("law: {call:?} answered {answer} after {:?}, counts {:?}", self.accepted, counts(lists)))
    }

    fn accept(&mut self, sender: usize) -> bool {
        let Some(count) = self.accepted.get_mut(sender) else { return false };
        *count += 1;
        if self.used_up { *count <= SHARE } else { u32::from(*count) <= MOST }
    }
}

#[cfg(test)]
mod tests {
    use super::*;
    use reference::{COUNTS, Sent};

    fn add(sender: u16) -> Call {
        Call::Add { sender, sent: Sent::default() }
    }

    /// Lists with these counts, and a ledger that knows of them.
    fn noted(counts: &[u16]) -> (Lists, Ledger) {
        let (mut lists, mut ledger) = (Lists::default(), Ledger::default());
        lists.board[0] = counts.iter().sum();
        lists.board[COUNTS..][..counts.len()].copy_from_slice(counts);
        ledger.accepted[..counts.len()].copy_from_slice(counts);
        (lists, ledger)
    }

    /// Whether an add of sender 0 may be accepted.
    fn may_add(counts: &[u16], used_up: bool) -> bool {
        let (mut lists, mut ledger) = noted(counts);
        ledger.used_up = used_up;
        lists.board[0] += 1;
        lists.board[COUNTS] += 1;
        ledger.check(&lists, add(0), 0) == Ok(used_up)
    }

    #[test]
    fn accepted_ones() {
        assert_eq!([15, 16, 527, 528].map(|count| may_add(&[count], false)), [true, true, true, false]);
        assert_eq!([0, 15, 16, 17].map(|count| may_add(&[count, 17], true)), [true, true, false, false]);
    }

    #[test]
    fn refused_ones() {
        for (count, is_lawful) in [(0, false), (15, false), (16, true), (528, true)] {
            let (lists, mut ledger) = noted(&[3, count]);
            assert_eq!(ledger.check(&lists, add(1), refused(26)).is_ok(), is_lawful);
        }
        let (lists, mut ledger) = noted(&[528]);
        for number in [8, 9, 10, 19, 11] {
            assert_eq!(ledger.check(&lists, add(0), refused(number)), Ok(false));
        }
        let odd = [(add(0), 12), (Call::Step { sender: 0 }, 26), (Call::Close { day: 0 }, 26), (add(32), 26)];
        assert!(odd.iter().all(|&(call, number)| ledger.check(&lists, call, refused(number)).is_err()));
    }

    #[test]
    fn counts_as_answered() {
        let (mut lists, mut ledger) = noted(&[2, 1]);
        let step = Call::Step { sender: 0 };
        assert_eq!(ledger.check(&lists, step, 1 << 16), Ok(false));
        lists.board[0] = 4;
        assert!(ledger.check(&lists, step, 1 << 16).is_err());
        (lists.board[0], lists.board[COUNTS], lists.board[COUNTS + 1]) = (3, 1, 2);
        assert!(ledger.check(&lists, step, 1 << 16).is_err());
    }
}
