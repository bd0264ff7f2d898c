//! What holds on every board of a schedule, checked on the plain numbers.

use crate::pair::Checked;
use reference::board::{CLAIMED, CONSUMED, PENDING, WOKEN};
use reference::lists::{CHORDS, DAYS, MEMBERS, STATUSES, UNITS, WAKERS};
use reference::{Equality, HAS_CLOSE, Lists, Phase, SENDER_NUMBERS, Sender, Sent, State, Table};
use std::collections::HashMap;

/// Each message as the adds said; and which are in a match.
#[derive(Default)]
pub struct Pool {
    added: Vec<Sent>,
    matched: Vec<bool>,
    matches: usize,
}

pub fn senders(lists: &Lists) -> Vec<Sender> {
    lists.board[2..HAS_CLOSE].chunks_exact(SENDER_NUMBERS).filter_map(Sender::from_numbers).collect()
}

/// A message's fields as the lists have them.
pub fn sent_at(lists: &Lists, message: usize) -> Sent {
    Sent {
        channel: lists.bytes[message].into(),
        property: lists.keys[message],
        cents: lists.cents[message],
        day: lists.keys[DAYS + message],
        unit: lists.links[UNITS + message],
    }
}

/// What the messages of a match have in common.
type Common = (Option<u32>, Option<u16>);

fn common(equality: Equality, sent: &Sent) -> Common {
    match equality {
        Equality::Any => (None, None),
        Equality::Property => (Some(sent.property), None),
        Equality::Unit => (Some(sent.property), Some(sent.unit)),
    }
}

impl Pool {
    pub fn add(&mut self, number: u16, sent: Sent) -> Checked<()> {
        self.added.push(sent);
        self.matched.push(false);
        ensure(usize::from(number) + 1 == self.added.len(), || format!("item {number} is not the next"))
    }

    /// A match as read: chord, length, cents and messages. They meet the chord, and leave.
    pub fn take(&mut self, number: u16, table: &Table, read: &[i64]) -> Checked<()> {
        ensure(usize::from(number) == self.matches, || format!("match {number} is not the next"))?;
        self.matches += 1;
        let chord = table.chord(read[0] as u8);
        let messages: Vec<usize> = read[3..].iter().map(|&message| message as usize).collect();
        ensure(messages.len() == chord.len.into(), || format!("match {number} has {} messages", messages.len()))?;
        for (&message, &channel) in messages.iter().zip(chord.members()) {
            ensure(!self.matched[message], || format!("message {message} is in two matches"))?;
            self.matched[message] = true;
            let (sent, first) = (&self.added[message], &self.added[messages[0]]);
            ensure(sent.channel == channel.into(), || format!("message {message} is not of channel {channel}"))?;
            let alike = common(chord.equality, sent) == common(chord.equality, first);
            ensure(alike, || format!("message {message} has another property or unit than message {}", messages[0]))?;
        }
        let cents: i64 = messages.iter().map(|&message| self.added[message].cents).sum();
        ensure(cents == read[2], || format!("match {number} reads {} cents, not {cents}", read[2]))
    }

    /// The board against the pool, and the invariant of the board itself.
    pub fn check(&self, table: &Table, lists: &Lists) -> Checked<()> {
        let counts = (self.added.len(), self.matches);
        ensure((lists.board[0].into(), lists.board[1].into()) == counts, || format!("counts are not {counts:?}"))?;
        let senders = senders(lists);
        self.check_messages(table, lists, &senders)?;
        check_owners(&senders)?;
        if senders.iter().all(Sender::at_rest) { self.check_quiet(table, lists) } else { Ok(()) }
    }

    fn check_messages(&self, table: &Table, lists: &Lists, senders: &[Sender]) -> Checked<()> {
        let mut holders = vec![0u8; self.added.len()];
        for sender in senders {
            for message in held_by(table, sender) {
                holders[usize::from(message)] += 1;
            }
        }
        for (message, &holding) in holders.iter().enumerate() {
            let is_as_sent = sent_at(lists, message) == self.added[message];
            ensure(is_as_sent, || format!("message {message} is not as it was sent"))?;
            let status = lists.bytes[STATUSES + message];
            let fine = match status {
                CLAIMED => holding == 1,
                WOKEN => !self.matched[message] && holding == 0 && lists.links[WAKERS + message] != 0,
                CONSUMED => self.matched[message] && holding == 0 && in_its_match(table, lists, message),
                _ => !self.matched[message] && holding == 0,
            };
            ensure(fine, || format!("message {message} has status {status}, {holding} holders"))?;
        }
        Ok(())
    }

    /// On a quiet board nothing is claimed or woken, and no chord can be met from the pool.
    fn check_quiet(&self, table: &Table, lists: &Lists) -> Checked<()> {
        let pending = |status: &u8| *status == PENDING || *status == CONSUMED;
        let statuses = &lists.bytes[STATUSES..][..self.added.len()];
        ensure(statuses.iter().all(pending), || "a quiet board has a claimed or woken message".to_string())?;
        let groups = [Equality::Any, Equality::Property, Equality::Unit].map(|equality| self.left_by(equality));
        for number in 0..table.chord_count {
            let chord = table.chord(number);
            let met = |left: &[usize; 16]| {
                let wanted = |channel: &u8| chord.members().iter().filter(|member| *member == channel).count();
                chord.members().iter().all(|channel| left[usize::from(*channel)] >= wanted(channel))
            };
            let can_be_met = groups[chord.equality as usize].values().any(met);
            ensure(!can_be_met, || format!("the board is quiet and chord {number} can be met"))?;
        }
        Ok(())
    }

    /// How many messages the pool has of each channel, by what a match of them would have in common.
    fn left_by(&self, equality: Equality) -> HashMap<Common, [usize; 16]> {
        let mut groups = HashMap::new();
        for (sent, _) in self.added.iter().zip(&self.matched).filter(|(_, matched)| !**matched) {
            groups.entry(common(equality, sent)).or_insert([0; 16])[usize::from(sent.channel)] += 1;
        }
        groups
    }
}

fn in_its_match(table: &Table, lists: &Lists, message: usize) -> bool {
    let Some(number) = lists.links[message].checked_sub(1).filter(|&k| k < lists.board[1]) else {
        return false;
    };
    let len = table.chord(lists.bytes[CHORDS + usize::from(number)]).len;
    lists.links[MEMBERS + 8 * usize::from(number)..][..len.into()].contains(&(message as u16))
}

fn check_owners(senders: &[Sender]) -> Checked<()> {
    let mut owned: Vec<u16> =
        senders.iter().filter(|sender| sender.state != State::Idle).filter_map(|sender| sender.own).collect();
    let count = owned.len();
    owned.sort_unstable();
    owned.dedup();
    ensure(owned.len() == count, || "two senders own one message".to_string())
}

/// The messages that a sender has claimed and neither put back nor turned further.
fn held_by(table: &Table, sender: &Sender) -> Vec<u16> {
    if sender.state != State::Working {
        return Vec::new();
    }
    let place = |at: u8| usize::from(at);
    let chosen = &sender.chosen;
    let len = if sender.chord < table.chord_count { usize::from(table.chord(sender.chord).len) } else { 0 };
    match sender.phase {
        Phase::Claim(at) => chosen[..place(at)].to_vec(),
        Phase::Revert { at, made } => chosen[place(at)..place(made)].to_vec(),
        Phase::Consume { at, .. } => chosen[place(at)..len].to_vec(),
        Phase::Wake => chosen[..len].to_vec(),
        Phase::Free(at) => {
            let woken = table.chord(sender.chord).waiting.map(usize::from);
            (0..len).filter(|&at| Some(at) != woken).skip(place(at)).map(|at| chosen[at]).collect()
        }
        _ => Vec::new(),
    }
}

fn ensure(holds: bool, fault: impl Fn() -> String) -> Checked<()> {
    if holds { Ok(()) } else { Err(format!("invariant: {}", fault())) }
}
