//! The law of rests, by the table that a schedule's board was opened with, its calls and its answers alone: after the
//! k-th `again` of a job its sender's next steps answer `rested`, as many of them as entry k says, beyond 16 as the
//! sixteenth; no other step does. No call alters the table.

use crate::backoffs::{built_in, entry_of, rests};
use crate::calls::{Call, is_refusal};
use crate::pair::Checked;
use reference::backoff::{BUILT_IN, ENTRIES};
use reference::board::SENDERS;
use reference::{Backoff, Lists};

const AGAIN: u32 = 12;
const RESTED: u32 = 14;
/// Words after which a sender's job is over or past its last `again`: item, consumed, told, signalled, ended, answered,
/// resumed.
const LAST: [u32; 7] = [0, 7, 8, 11, 13, 15, 16];

/// What was answered to a sender in its job: how many `again`s, and how many rests since the last of them.
#[derive(Clone, Copy, Default)]
struct Job {
    agains: usize,
    rested: u16,
}

pub struct Waits {
    table: [u16; ENTRIES],
    jobs: [Job; SENDERS],
}

impl Waits {
    /// The table that was given, or the built-in one where none was.
    pub fn of(given: Option<&[u8]>) -> Checked<Waits> {
        let table = given.map_or(Some(BUILT_IN), Backoff::given).ok_or("a table that does not pass was accepted")?;
        Ok(Waits { table: table.0.map(u16::from), jobs: [Job::default(); SENDERS] })
    }

    /// Whether the call is a rest that the built-in table would not have given.
    pub fn check(&mut self, lists: &Lists, call: Call, answer: u32) -> Checked<bool> {
        let job = call.sender().and_then(|sender| self.jobs.get_mut(sender)).filter(|_| !is_refusal(answer));
        let (mut is_lawful, mut is_past) = (rests(lists) == self.table, false);
        if let Some(job) = job {
            let owed = if job.agains == 0 { 0 } else { self.table[entry_of(job.agains) - 1] };
            let is_step = matches!(call, Call::Step { .. });
            is_lawful &= (answer >> 16 == RESTED) == (is_step && job.rested < owed);
            is_past = answer >> 16 == RESTED && job.rested >= built_in(entry_of(job.agains.max(1)));
            job.note(answer >> 16);
        }
        let said = || format!("law: {call:?} answered {answer}, table {:?} and {:?}", self.table, rests(lists));
        if is_lawful { Ok(is_past) } else { Err(said()) }
    }
}

impl Job {
    fn note(&mut self, word: u32) {
        match word {
            AGAIN => (self.agains, self.rested) = (self.agains + 1, 0),
            RESTED => self.rested += 1,
            _ if LAST.contains(&word) => *self = Job::default(),
            _ => {}
        }
    }
}

#[cfg(test)]
mod tests {
    use super::*;
    use reference::RESTS;

    fn lists(table: &[u16; 16]) -> Lists {
        let mut lists = Lists::default();
        lists.board[RESTS..].copy_from_slice(table);
        lists
    }

    /// Whether steps of sender 5 may be answered by these words, and which of them rest past the built-in table.
    fn judged(given: Option<&[u8]>, words: &[u32]) -> Option<Vec<usize>> {
        let mut waits = Waits::of(given).ok()?;
        let (lists, mut past) = (lists(&waits.table.clone()), Vec::new());
        for (at, word) in words.iter().enumerate() {
            if waits.check(&lists, Call::Step { sender: 5 }, word << 16).ok()? {
                past.push(at);
            }
        }
        Some(past)
    }

    #[test]
    fn as_the_table_says() {
        assert_eq!(judged(None, &[2, 12, 1, 2, 12, 14, 1, 2, 12, 14, 1]), Some(vec![]));
        assert_eq!(
            [&[12, 14][..], &[12, 12, 2], &[12, 12, 14, 14]].map(|words| judged(None, words)),
            [None, None, None]
        );
        let two = Some(&[2; 16][..]);
        assert_eq!(judged(two, &[12, 14, 14, 2, 12, 14, 14, 2]), Some(vec![1, 2, 6]));
        assert_eq!([&[14][..], &[12, 14, 2], &[12, 14, 14, 14]].map(|words| judged(two, words)), [None, None, None]);
        assert_eq!(judged(Some(&[2; 15]), &[]), None);
        let steep: [u8; 16] = std::array::from_fn(|at| u8::from(at == 15));
        let agains = [12; 16];
        assert_eq!(judged(Some(&steep), &[&agains[..], &[14, 12, 14, 12, 14, 2]].concat()), Some(vec![]));
        assert_eq!(judged(Some(&steep), &[12; 17]), None);
    }

    #[test]
    fn each_job_anew() {
        let first: [u8; 16] = std::array::from_fn(|at| 1 + at as u8);
        for word in LAST {
            assert_eq!(
                judged(Some(&first), &[12, 14, 12, 14, 14, word, 12, 14, 12, 14, 14]).map(|it| it.len()),
                Some(4)
            );
        }
    }

    #[test]
    fn no_call_alters_it() {
        let mut waits = Waits::of(None).expect("a law");
        let table = waits.table;
        for call in [Call::Close { day: 0 }, Call::Step { sender: 40 }] {
            assert_eq!(waits.check(&lists(&table), call, 17 << 16 | 8), Ok(false));
            assert!(waits.check(&lists(&[0; 16]), call, 17 << 16 | 8).is_err());
        }
    }
}
