//! Soundness of any board, as 01 and the requests define it.

use crate::board::{Board, COMMON, CONSUMED, MESSAGES, MOST_CENTS, Phase, Sender, State, WOKEN};
use crate::table::{Chord, Table};

impl Board {
    pub fn is_sound(&self, table: &Table) -> bool {
        (self.messages as usize) <= MESSAGES
            && (self.matches as usize) <= MESSAGES
            && self.messages_sound(table)
            && self.matches_sound(table)
            && self.senders_sound(table)
            && self.owners_differ()
            && self.counts_sound()
            && self.backoff.passes()
    }

    /// Every counted message has a channel, a status and cents in range, and what its status calls for.
    fn messages_sound(&self, table: &Table) -> bool {
        let count = self.messages as usize;
        let (statuses, matched) = (&self.columns.statuses[..count], &self.columns.matched[..count]);
        let wakers = &self.columns.wakers[..count];
        at_most(&self.columns.channels[..count], table.channel_count - 1)
            && at_most(statuses, CONSUMED)
            && in_range(&self.columns.cents[..count])
            && at_most(matched, self.matches)
            && at_most(wakers, self.messages)
            && holds(statuses, CONSUMED, matched)
            && holds(statuses, WOKEN, wakers)
    }

    /// Every counted match has a chord, and messages that are counted.
    fn matches_sound(&self, table: &Table) -> bool {
        let count = self.matches as usize;
        let (chords, messages) = (&self.columns.chords[..count], &self.columns.messages[..count]);
        let size = |chord: u8| usize::from(table.chord(chord).len);
        below(chords, table.chord_count)
            && (below(messages.as_flattened(), self.messages)
                || chords.iter().zip(messages).all(|(&chord, of)| below(&of[..size(chord)], self.messages)))
    }

    fn senders_sound(&self, table: &Table) -> bool {
        (0..self.senders.len()).all(|i| {
            let sender = &self.senders[i];
            self.numbers_counted(sender)
                && match sender.state {
                    State::Idle => true,
                    State::Blocked => sender.own.is_some(),
                    State::Working => sender.own.is_some() && self.job_sound(table, i),
                }
        })
    }

    fn numbers_counted(&self, sender: &Sender) -> bool {
        let message = |number: Option<u16>| number.is_none_or(|number| number < self.messages);
        let matched = |number: Option<u16>| number.is_none_or(|number| number < self.matches);
        message(sender.own) && message(sender.waker) && matched(sender.reply) && matched(sender.matched)
    }

    /// No two senders, not idle, own the same message.
    fn owners_differ(&self) -> bool {
        let mut seen = [0u64; MESSAGES / 64];
        self.senders.iter().filter(|sender| sender.state != State::Idle).filter_map(|sender| sender.own).all(|own| {
            let (word, bit) = (&mut seen[own as usize / 64], 1 << (own % 64));
            let fresh = *word & bit == 0;
            *word |= bit;
            fresh
        })
    }

    /// The senders have added the messages, and no more common ones than there are.
    fn counts_sound(&self) -> bool {
        let added: u32 = self.counts.iter().map(|&count| u32::from(count)).sum();
        added == self.messages.into() && self.common_used() <= COMMON
    }

    fn job_sound(&self, table: &Table, i: usize) -> bool {
        let sender = &self.senders[i];
        if sender.subject >= self.messages || ![sender.own, sender.waker].contains(&Some(sender.subject)) {
            return false;
        }
        if matches!(sender.phase, Phase::PassEnd | Phase::Backoff(_)) {
            return true;
        }
        sender.chord < table.chord_count && self.place_sound(table, i, table.chord(sender.chord))
    }

    /// The place is one that the steps have for that chord and message in hand, and as many messages are chosen.
    fn place_sound(&self, table: &Table, i: usize, chord: &Chord) -> bool {
        let sender = &self.senders[i];
        let len = chord.len;
        let chosen = if let Phase::Look(at) = sender.phase { at } else { len };
        if chosen > len || !below(&sender.chosen[..chosen.into()], self.messages) {
            return false;
        }
        let channel = self.channel(sender.subject);
        let waiting_hand = table.is_waiting(channel);
        let matches = waiting_hand || chord.waiting.is_none();
        chord.first_of(channel).is_some()
            && match sender.phase {
                Phase::Look(at) | Phase::Claim(at) => at < len,
                Phase::Revert { at, made } => at < made && made < len,
                Phase::Consume { at, matched } => matches && at < len && matched.is_some_and(|k| k < self.matches),
                Phase::Tell(at) => matches && self.told(table, i, at.into()).is_some(),
                Phase::Wake | Phase::Signal => !matches,
                Phase::Free(at) => !matches && self.freed_place(table, i, at.into()).is_some(),
                Phase::PassEnd | Phase::Backoff(_) => true,
            }
    }
}

/// The largest of the numbers is at most that; without a way out, so that many are compared at a time.
fn at_most<T: Copy + Ord + Default>(numbers: &[T], most: T) -> bool {
    numbers.iter().fold(T::default(), |largest, &number| largest.max(number)) <= most
}

fn below<T: Copy + Ord + Default>(numbers: &[T], limit: T) -> bool {
    numbers.is_empty() || numbers.iter().fold(T::default(), |largest, &number| largest.max(number)) < limit
}

/// Neither sum nor difference with the bound is negative.
fn in_range(cents: &[i64]) -> bool {
    let sign = |&cents: &i64| MOST_CENTS.wrapping_add(cents) | MOST_CENTS.wrapping_sub(cents);
    cents.iter().map(sign).fold(0, |signs, sign| signs | sign) >= 0
}

/// Every message of that status holds a number.
fn holds(statuses: &[u8], status: u8, numbers: &[u16]) -> bool {
    let lacks = |(&at, &number): (&u8, &u16)| u16::from(at == status) & u16::from(number == 0);
    statuses.iter().zip(numbers).map(lacks).fold(0, |any, one| any | one) == 0
}
