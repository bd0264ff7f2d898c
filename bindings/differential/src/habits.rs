//! How a schedule chooses its calls.

use crate::backoffs::{KINDS, Kind};
use crate::calls::Call;
use crate::closes::close_day;
use crate::days::{self, Days};
use crate::invariant::senders;
use crate::random::{Random, random_table};
use crate::shares::{counts, has_used_up};
use reference::board::{MESSAGES, MOST_CENTS, PENDING, SENDERS, SHARE};
use reference::lists::{DAYS, STATUSES};
use reference::{Equality, Lists, Phase, Sender, Sent, State, Table};

/// Units that a schedule's messages have: one, few, the extremes, such as differ in their high bytes only.
const UNITS: [&[u16]; 5] = [&[0], &[0, 1], &[0, 1, 2, 65_535], &[1, 257, 65_281], &[0, 65_535]];
/// The same where a board is filled and units must be equal, so that few fit.
const SEVERAL: [&[u16]; 3] = [&[0, 1], &[0, 1, 2, 65_535], &[0, 1, 2, 3, 257, 258, 259, 65_281, 65_534, 65_535]];

/// Greedy senders, where a board is filled: none, one, a few.
const GREEDY: [&[usize]; 3] = [&[0], &[1], &[2, 3, 6]];

/// How a schedule chooses its calls.
pub struct Habits {
    /// Senders below this are chosen while one of them can be.
    favoured: usize,
    properties: usize,
    /// How far apart the properties are.
    apart: u32,
    days: Days,
    units: &'static [u16],
    /// Closes of a thousand calls.
    closing: usize,
    adding: usize,
    run_on: usize,
    pub length: usize,
    /// Adds of leaving messages, until the board is full.
    filling: bool,
    /// So many senders fill it alone, as far as they can.
    greedy: usize,
    /// The first chord wants equal units.
    by_unit: bool,
    last: usize,
    /// No adds, until the board is quiet.
    pub draining: bool,
    /// Senders that hold claimed messages mostly wait, so that others try again and again.
    contending: bool,
    /// The backoff table that the board is opened with.
    pub kind: Kind,
}

impl Habits {
    pub fn new(random: &mut Random, number: u64) -> Habits {
        let (filling, by_unit, contending) = (number % 10 == 1, number % 20 == 11, number % 5 == 3);
        let greedy: &[usize] = if filling { GREEDY[(number / 10 % 3) as usize] } else { &[0] };
        let properties: &[usize] = match (filling, by_unit) {
            (_, true) => &[3, 10, 30],
            (true, _) => &[1, 3, 30, 300],
            _ if contending => &[1, 1, 2],
            _ => &[1, 2, 2, 3, 5],
        };
        let (adding, lengths): (&[usize], &[usize]) = match (filling, contending) {
            (true, _) => (&[90], &[8_000]),
            (_, true) => (&[0], &[600, 1_500]),
            _ => (&[10, 20, 35, 50], &[100, 300, 600, 1_500]),
        };
        Habits {
            favoured: random.pick(&[2, 3, 6, 12, 32]),
            properties: random.pick(properties),
            apart: random.pick(&[1, 1, 1, 256, 65_536, 16_777_216]),
            days: random.pick(&days::SORTS),
            units: random.pick(if by_unit { &SEVERAL } else { &UNITS[..] }),
            closing: random.pick(if filling { &[0, 2, 10] } else { &[0, 0, 5, 20, 60] }),
            adding: random.pick(adding),
            run_on: random.pick(&[0, 30, 70, 95]),
            length: random.pick(lengths),
            filling,
            greedy: random.pick(greedy),
            by_unit,
            last: 0,
            draining: false,
            contending,
            kind: random.pick(&KINDS).0,
        }
    }

    /// A table; to be filled, a board wants one or two chords and a channel that lets its senders go, and its senders
    /// want few chords to contend, the first of two messages or more.
    pub fn table(&self, random: &mut Random) -> Vec<u8> {
        loop {
            let table = random_table(random);
            if Table::read(&table).is_ok_and(|table| self.suits(&table)) {
                return table;
            }
        }
    }

    fn suits(&self, table: &Table) -> bool {
        let can_contend = || (1..=3).contains(&table.chord_count) && table.chord(0).len > 1;
        (!self.filling || self.can_fill(table)) && (!self.contending || can_contend())
    }

    fn can_fill(&self, table: &Table) -> bool {
        let few = (1..=2).contains(&table.chord_count) && leaving(table).next().is_some();
        few && (!self.by_unit || table.chord(0).equality == Equality::Unit)
    }

    pub fn choose(&mut self, random: &mut Random, table: &Table, lists: &Lists) -> Call {
        let senders = senders(lists);
        if !self.draining
            && random.chance(if self.filling { 4 } else { 2 })
            && let Some(call) = self.odd_call(random, table, lists, &senders)
        {
            return call;
        }
        if random.below(1_000) < self.closing {
            return Call::Close { day: self.day_to_close(random, lists) };
        }
        let idle = self.adders(random, &senders, lists);
        let busy = self.steppers(random, &senders);
        if !busy.is_empty() && (self.draining || idle.is_empty() || !random.chance(self.adding)) {
            if !busy.contains(&self.last) || !random.chance(self.run_on) {
                self.last = random.pick(&busy);
            }
            return Call::Step { sender: self.last as u16 };
        }
        if idle.is_empty() || self.draining {
            return Call::Step { sender: random.below(32) as u16 };
        }
        let (sender, channel) = (random.pick(&idle) as u16, self.channel(random, table, lists));
        let (property, day) = (self.property(random), self.day(random, lists));
        let unit = random.pick(self.units);
        Call::Add { sender, sent: Sent { channel, property, cents: cents(random), day, unit } }
    }

    /// A call that is mostly refused. To fill a board, mostly the add of a sender that has no message left, if there is
    /// one, and none that may leave its sender waiting.
    fn odd_call(&self, random: &mut Random, table: &Table, lists: &Lists, senders: &[Sender]) -> Option<Call> {
        let call = odd_call(random, table);
        if !self.filling {
            return Some(call);
        }
        in_vain(random, lists, senders, call).or((!may_wait(table, call)).then_some(call))
    }

    /// Idle senders. To fill a board, greedy ones while they have any message left, but for some own ones of others;
    /// then mostly those that have any left.
    fn adders(&self, random: &mut Random, senders: &[Sender], lists: &Lists) -> Vec<usize> {
        let is_idle = |i: usize| senders[i].state == State::Idle;
        let has_left = |i: usize| !has_used_up(lists, i);
        if !self.filling {
            self.those(is_idle)
        } else if !(0..self.greedy).any(has_left) {
            if random.chance(30) || !(0..SENDERS).any(has_left) {
                return (0..SENDERS).filter(|&i| is_idle(i)).collect();
            }
            self.those(|i| is_idle(i) && has_left(i))
        } else if random.chance(5) {
            self.those(|i| is_idle(i) && counts(lists)[i] < SHARE)
        } else {
            self.those(|i| is_idle(i) && has_left(i) && i < self.greedy)
        }
    }

    /// Senders with a step to take. Where they contend, mostly those that hold no claimed message.
    fn steppers(&self, random: &mut Random, senders: &[Sender]) -> Vec<usize> {
        let free = self.those(|i| !senders[i].at_rest() && !holds(&senders[i]));
        let waits = if free.is_empty() { random.chance(70) } else { random.below(400) > 0 };
        if self.contending && !self.draining && waits { free } else { self.those(|i| !senders[i].at_rest()) }
    }

    /// The favoured senders that are as wanted; if none is, any such sender.
    fn those(&self, wanted: impl Fn(usize) -> bool) -> Vec<usize> {
        let all: Vec<usize> = (0..SENDERS).filter(|&i| wanted(i)).collect();
        let favoured: Vec<usize> = all.iter().copied().filter(|&i| i < self.favoured).collect();
        if favoured.is_empty() { all } else { favoured }
    }

    /// A channel of some chord, often the one that the chord is shortest of.
    fn channel(&self, random: &mut Random, table: &Table, lists: &Lists) -> u16 {
        if self.filling {
            return random.pick(&leaving(table).collect::<Vec<u8>>()).into();
        }
        let dice = random.below(10);
        if dice < 2 || table.chord_count == 0 {
            return random.below(table.channel_count.into()) as u16;
        }
        let members = table.chord(random.below(table.chord_count.into()) as u8).members();
        if dice < 5 {
            return random.pick(members).into();
        }
        let count = usize::from(lists.board[0]);
        let pending = |channel: u8| {
            let kinds = &lists.bytes[..count];
            let states = &lists.bytes[STATUSES..][..count];
            kinds.iter().zip(states).filter(|&(&kind, &state)| kind == channel && state == PENDING).count()
        };
        members.iter().copied().min_by_key(|&channel| pending(channel)).unwrap_or(0).into()
    }

    /// A day as the schedule's come; where that is closed, mostly one soon after the close day.
    fn day(&self, random: &mut Random, lists: &Lists) -> u32 {
        let day = self.days.next(random, lists.board[0]);
        match close_day(lists) {
            Some(closed) if day <= closed && random.chance(75) => closed.saturating_add(random.pick(&[1, 1, 2, 5])),
            _ => day,
        }
    }

    /// The day of a message, mostly; the close day again, one before it, or an extreme. While a board is being filled
    /// the last day stays open.
    fn day_to_close(&self, random: &mut Random, lists: &Lists) -> u32 {
        let (closed, count) = (close_day(lists).unwrap_or(0), usize::from(lists.board[0]));
        let day = match random.below(16) {
            0..2 => closed,
            2 => closed.saturating_sub(1 + random.below(3) as u32),
            3 => 0,
            4 if random.chance(10) => u32::MAX,
            5..8 if count > 0 => lists.keys[DAYS + random.below(count)],
            8.. if count > 0 => lists.keys[DAYS + count - 1],
            _ => self.days.next(random, lists.board[0]),
        };
        if self.filling && count < MESSAGES { day.min(u32::MAX - 1) } else { day }
    }

    fn property(&self, random: &mut Random) -> u32 {
        if random.chance(2) { u32::MAX } else { self.apart.wrapping_mul(random.below(self.properties) as u32) }
    }
}

/// Whether a sender at work holds messages that it has claimed.
fn holds(sender: &Sender) -> bool {
    let holds = !matches!(sender.phase, Phase::Look(_) | Phase::Claim(0) | Phase::PassEnd | Phase::Backoff(_));
    sender.state == State::Working && holds
}

fn leaving(table: &Table) -> impl Iterator<Item = u8> {
    (0..table.channel_count).filter(|&channel| !table.is_waiting(channel))
}

fn cents(random: &mut Random) -> i64 {
    if random.chance(3) { random.pick(&[MOST_CENTS, -MOST_CENTS, 0]) } else { random.below(200_000) as i64 - 100_000 }
}

/// The same add, of a sender that has no message left and often is not idle; none if there is no such sender.
fn in_vain(random: &mut Random, lists: &Lists, senders: &[Sender], call: Call) -> Option<Call> {
    let Call::Add { sent, .. } = call else { return None };
    let used_up: Vec<usize> = (0..SENDERS).filter(|&i| has_used_up(lists, i)).collect();
    let busy: Vec<usize> = used_up.iter().copied().filter(|&i| senders[i].state != State::Idle).collect();
    let those = if busy.is_empty() || random.chance(50) { &used_up } else { &busy };
    (!those.is_empty() && random.chance(75)).then(|| Call::Add { sender: random.pick(those) as u16, sent })
}

fn may_wait(table: &Table, call: Call) -> bool {
    let waits = |channel: u16| (0..table.channel_count).any(|it| u16::from(it) == channel && table.is_waiting(it));
    matches!(call, Call::Add { sent, .. } if waits(sent.channel))
}

/// A call that is mostly refused.
pub fn odd_call(random: &mut Random, table: &Table) -> Call {
    let sender = if random.chance(80) { random.below(32) as u16 } else { random.pick(&[32, 33, 255, 65_535]) };
    let channels = u16::from(table.channel_count);
    let channel = random.pick(&[0, channels - 1, channels - 1, channels, 65_535]);
    let cents = random.pick(&[0, 1, MOST_CENTS, MOST_CENTS + 1, -MOST_CENTS - 1, i64::MAX, i64::MIN]);
    let (day, unit) = (random.pick(&[0, 1, u32::MAX]), random.pick(&[0, 1, u16::MAX]));
    let sent = Sent { channel, property: 0, cents, day, unit };
    if random.chance(30) { Call::Step { sender } } else { Call::Add { sender, sent } }
}
