//! The board: counts, 32 senders, the close day, what each sender has added, the backoff table, and the columns of
//! messages and matches.

use crate::backoff::Backoff;

pub const SENDERS: usize = 32;
pub const MESSAGES: usize = 1024;
pub const MOST_CENTS: i64 = 999_999_999_999;
/// How many of the messages are each sender's own, and how many common.
pub const SHARE: u16 = 16;
pub const COMMON: u32 = 512;

pub const PENDING: u8 = 0;
pub const CLAIMED: u8 = 1;
pub const WOKEN: u8 = 2;
pub const CONSUMED: u8 = 3;

#[derive(Clone, Copy, Debug, PartialEq, Eq, Default)]
pub enum State {
    #[default]
    Idle,
    Working,
    Blocked,
}

/// Where a job stands. The numbers are member places; tell and free count the messages told and freed, a backoff the
/// rests left after the next one.
#[derive(Clone, Copy, Debug, PartialEq, Eq)]
pub enum Phase {
    Look(u8),
    Claim(u8),
    Revert { at: u8, made: u8 },
    Consume { at: u8, matched: Option<u16> },
    Tell(u8),
    Wake,
    Free(u8),
    Signal,
    PassEnd,
    Backoff(u8),
}

impl Default for Phase {
    fn default() -> Phase {
        Phase::Look(0)
    }
}

#[derive(Clone, Copy, Debug, PartialEq, Eq, Default)]
pub struct Sender {
    pub state: State,
    pub signalled: bool,
    pub own: Option<u16>,
    pub waker: Option<u16>,
    pub reply: Option<u16>,
    /// The match that its own message was matched in, until the reply is given.
    pub matched: Option<u16>,
    /// The message in hand.
    pub subject: u16,
    pub chord: u8,
    pub phase: Phase,
    pub retry: bool,
    pub retries: u8,
    pub chosen: [u16; 8],
}

impl Sender {
    /// Idle, or blocked without a signal.
    pub fn at_rest(&self) -> bool {
        match self.state {
            State::Idle => true,
            State::Working => false,
            State::Blocked => !self.signalled,
        }
    }

    pub fn owns(&self, message: u16) -> bool {
        self.state != State::Idle && self.own == Some(message)
    }
}

/// Messages by field, then matches: a chord and eight message numbers each. `matched` and `wakers` are numbers plus 1.
#[derive(Clone, Debug, PartialEq, Eq)]
pub struct Columns {
    pub channels: Box<[u8; MESSAGES]>,
    pub properties: Box<[u32; MESSAGES]>,
    pub days: Box<[u32; MESSAGES]>,
    pub units: Box<[u16; MESSAGES]>,
    pub cents: Box<[i64; MESSAGES]>,
    pub statuses: Box<[u8; MESSAGES]>,
    pub matched: Box<[u16; MESSAGES]>,
    pub wakers: Box<[u16; MESSAGES]>,
    pub chords: Box<[u8; MESSAGES]>,
    pub messages: Box<[[u16; 8]; MESSAGES]>,
}

impl Default for Columns {
    fn default() -> Columns {
        let (bytes, numbers) = (Box::new([0; MESSAGES]), Box::new([0; MESSAGES]));
        Columns {
            channels: bytes.clone(),
            properties: Box::new([0; MESSAGES]),
            days: Box::new([0; MESSAGES]),
            units: numbers.clone(),
            cents: Box::new([0; MESSAGES]),
            statuses: bytes.clone(),
            matched: numbers.clone(),
            wakers: numbers,
            chords: bytes,
            messages: Box::new([[0; 8]; MESSAGES]),
        }
    }
}

#[derive(Clone, Debug, PartialEq, Eq, Default)]
pub struct Board {
    /// Counts of messages and matches.
    pub messages: u16,
    pub matches: u16,
    pub senders: [Sender; SENDERS],
    /// The books are closed up to this day, it included; none where no day is closed.
    pub close_day: Option<u32>,
    /// How many messages each sender has added.
    pub counts: [u16; SENDERS],
    /// The one that the board was opened with.
    pub backoff: Backoff,
    pub columns: Columns,
}

/// A number kept plus 1, 0 for none.
pub fn held(kept: u16) -> Option<u16> {
    kept.checked_sub(1)
}

pub fn kept(number: Option<u16>) -> u16 {
    number.map_or(0, |number| number.saturating_add(1))
}

impl Board {
    pub fn channel(&self, message: u16) -> u8 {
        self.columns.channels[message as usize]
    }

    pub fn status(&self, message: u16) -> u8 {
        self.columns.statuses[message as usize]
    }

    pub fn set_status(&mut self, message: u16, status: u8) {
        self.columns.statuses[message as usize] = status;
    }

    /// Whether the books are closed up to that day or a later one.
    pub fn is_closed(&self, day: u32) -> bool {
        self.close_day.is_some_and(|close_day| day <= close_day)
    }

    /// How many common messages are used: one for each that a sender has added past its own.
    pub fn common_used(&self) -> u32 {
        self.counts.iter().map(|count| u32::from(count.saturating_sub(SHARE))).sum()
    }

    /// Whether a sender has used its own messages, and all common ones are used too.
    pub fn has_used_up(&self, sender: usize) -> bool {
        self.counts[sender] >= SHARE && self.common_used() >= COMMON
    }

    pub fn is_quiet(&self) -> bool {
        self.senders.iter().all(Sender::at_rest)
    }

    /// Sets a message's signal: that of the sender, not idle, whose own message it is.
    pub fn signal(&mut self, message: u16) {
        if let Some(sender) = self.senders.iter_mut().find(|sender| sender.owns(message)) {
            sender.signalled = true;
        }
    }
}
