//! A look that a step makes: what it may take, and what days, units and words decided.

use crate::calls::Call;
use crate::words::{self, BLOCK, BY_WORDS};
use reference::board::{CLAIMED, PENDING};
use reference::lists::{DAYS, STATUSES, UNITS};
use reference::{Equality, Lists, Phase, SENDER_NUMBERS, Sender, State, Table};
use std::ops::Range;

pub const LOOKED: u32 = 1;
pub const MISSED: u32 = 2;

/// What days can decide.
pub const BY_DAYS: [&str; 6] = [
    "an older one taken before a lower number",
    "a lower number taken of equal days",
    "a newer one passed over",
    "the first day taken",
    "the last day taken",
    "the hand taken before an older one",
];

/// What units can decide: for chords of equal units, then for the others.
pub const BY_UNITS: [&str; 9] = [
    "another unit passed over",
    "another unit passed over and none taken",
    "another property of the unit passed over",
    "the first unit taken",
    "the last unit taken",
    "a claimed one of the unit marks a retry",
    "a claimed one of another unit marks none",
    "another unit taken where properties must be equal",
    "another unit taken where nothing must be equal",
];

/// A message, and what it has as the one in hand has it.
#[derive(Clone, Copy)]
pub struct Candidate {
    pub number: u16,
    pub day: u32,
    unit: u16,
    pub same_property: bool,
    pub same_unit: bool,
    /// It has another property, but with the same low half.
    pub same_half: bool,
}

impl Candidate {
    fn beside(lists: &Lists, hand: usize, message: usize) -> Candidate {
        let (ours, theirs) = (lists.keys[hand], lists.keys[message]);
        let unit = lists.links[UNITS + message];
        Candidate {
            number: message as u16,
            day: lists.keys[DAYS + message],
            unit,
            same_property: ours == theirs,
            same_unit: unit == lists.links[UNITS + hand],
            same_half: ours != theirs && ours as u16 == theirs as u16,
        }
    }

    pub fn is_before(&self, other: Candidate) -> bool {
        (self.day, self.number) < (other.day, other.number)
    }

    pub fn is_of_another_unit(&self) -> bool {
        self.same_property && !self.same_unit
    }

    pub fn block(&self) -> u16 {
        self.number / BLOCK
    }
}

pub struct Look {
    sender: usize,
    /// How many messages the board has.
    pub count: u16,
    pub chord: u8,
    pub equality: Equality,
    /// The member that is looked for, and whether it is the one that the message in hand fills.
    at: usize,
    pub of_hand: bool,
    pub hand: Candidate,
    /// The mark before the look.
    pub retry: bool,
    /// Of the channel: the pending ones that are not chosen, those that are, and the claimed ones.
    pub pending: Vec<Candidate>,
    pub chosen: Vec<Candidate>,
    pub claimed: Vec<Candidate>,
    /// What would be pending and claimed ones, past the count in its block.
    pub pending_past: Vec<Candidate>,
    pub claimed_past: Vec<Candidate>,
}

impl Look {
    /// The look that a call makes on a sound board; none if it makes none.
    pub fn before(table: &Table, lists: &Lists, call: Call) -> Option<Look> {
        let Call::Step { sender } = call else { return None };
        let sender = usize::from(sender);
        let job = Sender::from_numbers(lists.board.get(2 + SENDER_NUMBERS * sender..)?.get(..SENDER_NUMBERS)?)?;
        let (State::Working, Phase::Look(at)) = (job.state, job.phase) else { return None };
        let (chord, at) = (table.chord(job.chord), usize::from(at));
        let hand = usize::from(job.subject);
        let candidate = |message: usize| Candidate::beside(lists, hand, message);
        let is_of = |message: usize| lists.bytes[message] == chord.channels[at];
        let is_free = |message: usize| !job.chosen[..at].contains(&(message as u16));
        let count = lists.board[0];
        let with = |status: u8, messages: Range<u16>| {
            let messages = messages.map(usize::from);
            messages.filter(move |&it| is_of(it) && lists.bytes[STATUSES + it] == status)
        };
        let past = || count..count.next_multiple_of(BLOCK);
        Some(Look {
            sender,
            count,
            chord: job.chord,
            equality: chord.equality,
            at,
            of_hand: chord.first_of(lists.bytes[hand]) == Some(at),
            hand: candidate(hand),
            retry: job.retry,
            pending: with(PENDING, 0..count).filter(|&it| is_free(it)).map(candidate).collect(),
            chosen: with(PENDING, 0..count).filter(|&it| !is_free(it)).map(candidate).collect(),
            claimed: with(CLAIMED, 0..count).map(candidate).collect(),
            pending_past: with(PENDING, past()).map(candidate).collect(),
            claimed_past: with(CLAIMED, past()).map(candidate).collect(),
        })
    }

    pub fn fits(&self, it: &Candidate) -> bool {
        match self.equality {
            Equality::Any => true,
            Equality::Property => it.same_property,
            Equality::Unit => it.same_property && it.same_unit,
        }
    }

    /// Whether it would fit if properties were their low halves only.
    pub fn fits_by_half(&self, it: &Candidate) -> bool {
        self.equality != Equality::Any && self.fits(&Candidate { same_property: it.same_half, ..*it })
    }

    /// All that may be taken.
    pub fn fitting(&self) -> impl Iterator<Item = Candidate> {
        self.pending.iter().copied().filter(|it| self.fits(it))
    }

    /// Which of `BY_DAYS`, `BY_UNITS` and `BY_WORDS` it is, with that answer.
    pub fn decided(&self, answer: u32) -> impl Iterator<Item = &'static str> {
        let taken = self.pending.iter().copied().find(|it| answer == LOOKED << 16 | u32::from(it.number));
        let (days, units) = match taken {
            _ if self.of_hand => ([false, false, false, false, false, self.any_older()], [false; 9]),
            Some(taken) => (self.by_days(taken), self.by_units(taken)),
            None => ([false; 6], self.missed_by_units()),
        };
        let (days, units) = (BY_DAYS.into_iter().zip(days), BY_UNITS.into_iter().zip(units));
        let words = BY_WORDS.into_iter().zip(words::decided(self, taken));
        days.chain(units).chain(words).filter(|(_, is)| *is).map(|(what, _)| what)
    }

    fn any_older(&self) -> bool {
        self.fitting().any(|it| it.day < self.hand.day)
    }

    fn by_days(&self, Candidate { number, day, .. }: Candidate) -> [bool; 6] {
        [
            self.fitting().any(|it| it.number < number),
            self.fitting().any(|it| it.number > number && it.day == day),
            self.fitting().any(|it| it.day > day),
            day == 0,
            day == u32::MAX,
            false,
        ]
    }

    fn by_units(&self, taken: Candidate) -> [bool; 9] {
        let is_of = |equality: Equality| self.equality == equality;
        let earlier = || self.pending.iter().filter(|it| is_of(Equality::Unit) && it.is_before(taken));
        [
            earlier().any(Candidate::is_of_another_unit),
            false,
            earlier().any(|it| it.same_unit && !it.same_property),
            is_of(Equality::Unit) && taken.unit == 0,
            is_of(Equality::Unit) && taken.unit == u16::MAX,
            false,
            false,
            is_of(Equality::Property) && !taken.same_unit,
            is_of(Equality::Any) && !taken.same_unit,
        ]
    }

    fn missed_by_units(&self) -> [bool; 9] {
        let is_of_units = self.equality == Equality::Unit;
        let of_another = |them: &[Candidate]| is_of_units && them.iter().any(Candidate::is_of_another_unit);
        let marks = self.claimed.iter().any(|it| self.fits(it));
        [
            false,
            of_another(&self.pending),
            false,
            false,
            false,
            is_of_units && marks,
            of_another(&self.claimed) && !marks && !self.retry,
            false,
            false,
        ]
    }

    /// Another message was taken.
    pub fn put(&self, lists: &mut Lists, message: u16) {
        lists.board[2 + SENDER_NUMBERS * self.sender + 13 + self.at] = message;
    }

    /// The mark is set after the look.
    pub fn mark(&self, lists: &mut Lists) {
        lists.board[2 + SENDER_NUMBERS * self.sender + 11] = 1;
    }
}
