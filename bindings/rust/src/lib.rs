//! The matching board, a join-pattern matcher after Russo and Turon, proved; here for Rust.
//!
//! A [`Matcher`] owns a table of chords and a board. Senders add messages and take steps; the matcher says what each
//! step did. A close lets no more messages in that are dated up to its day. Of the board's 1,024 messages 16 are each
//! sender's own and 512 common. How long a sender rests between its tries, the board's backoff table says. A refused
//! call alters nothing. [`merge_tables`] makes one table of two.

mod answer;
pub mod host;
mod refusal;

pub use answer::Answer;
pub use refusal::Refusal;

use host::Lists;

/// A message's status.
#[derive(Clone, Copy, Debug, PartialEq, Eq)]
pub enum Status {
    Pending,
    Claimed,
    Woken,
    Consumed,
}

/// A message as it reads now.
#[derive(Clone, Copy, Debug, PartialEq, Eq)]
pub struct Message {
    pub channel: u8,
    pub property: u32,
    pub cents: i64,
    pub day: u32,
    pub unit: u16,
    pub status: Status,
    pub matched: Option<u16>,
    pub waker: Option<u16>,
}

/// A match: its chord, the sum of its cents, its messages in member order.
#[derive(Clone, Debug, PartialEq, Eq)]
pub struct Match {
    pub chord: u8,
    pub cents: i64,
    pub messages: Vec<u16>,
}

/// A call of a replay.
#[derive(Clone, Copy, Debug, PartialEq, Eq)]
pub enum Call {
    Add { sender: u16, channel: u16, property: u32, cents: i64, day: u32, unit: u16 },
    Step { sender: u16 },
    Close { day: u32 },
}

#[derive(Clone, Debug)]
pub struct Matcher {
    table: Vec<u8>,
    lists: Lists,
}

impl Matcher {
    /// An empty board for that table, with the built-in backoff table, or what is wrong with the table.
    pub fn open(table: impl Into<Vec<u8>>) -> Result<Matcher, Refusal> {
        let (table, mut lists) = (table.into(), Lists::default());
        refused(host::open(&table, &mut lists.board))?;
        Ok(Matcher { table, lists })
    }

    /// The same with a backoff table of one's own: sixteen entries, none over 64 and none less than the one before it.
    /// After the k-th [`Answer::Again`] of a job a sender spends as many steps, each [`Answer::Rested`], as entry k
    /// says, from 1; beyond 16, as the last one says.
    ///
    /// ```
    /// use gevnyusto::{Matcher, Refusal};
    ///
    /// // Rents and receipts, which leave; a chord of both, of one property.
    /// const RENTS: [u8; 20] = [2, 0, 1, 0, 2, 0, 12, 0, 14, 0, 18, 0, 0, 0, 0, 0, 2, 1, 0, 1];
    ///
    /// let matcher = Matcher::open_with_rests(RENTS, &[20; 16])?;
    /// assert_eq!(matcher.rests(), [20; 16]);
    /// assert_eq!(Matcher::open(RENTS)?.rests(), [0, 1, 1, 2, 2, 4, 4, 8, 8, 16, 16, 16, 32, 32, 32, 32]);
    /// assert_eq!(Matcher::open_with_rests(RENTS, &[65; 16]).err(), Some(Refusal::WrongBackoffs));
    /// assert_eq!(Matcher::open_with_rests(RENTS, &[]).err(), Some(Refusal::WrongBackoffs));
    /// # Ok::<(), Refusal>(())
    /// ```
    pub fn open_with_rests(table: impl Into<Vec<u8>>, rests: &[u8]) -> Result<Matcher, Refusal> {
        let (table, mut lists) = (table.into(), Lists::default());
        refused(host::open_with_rests(&table, rests, &mut lists.board))?;
        Ok(Matcher { table, lists })
    }

    /// Adds a message of an idle sender; it answers [`Answer::Item`]. Of the messages that fit, the one with the least
    /// day is matched first, the lowest-numbered of equal days. A chord's last byte in the table says which fit: with 0
    /// all of the channel, with 1 those of equal property, with 2 those of equal property and unit.
    ///
    /// A sender's first 16 messages are its own, those past them common ones, of which there are 512; with its own and
    /// the common ones used it is refused, whatever was matched since.
    ///
    /// ```
    /// use gevnyusto::{Matcher, Refusal};
    ///
    /// // Rents and receipts, which leave; a chord of both, of one property and unit.
    /// const FLATS: [u8; 20] = [2, 0, 1, 0, 2, 0, 12, 0, 14, 0, 18, 0, 0, 0, 0, 0, 2, 2, 0, 1];
    ///
    /// let mut matcher = Matcher::open(FLATS)?;
    /// for (channel, unit) in [(0, 3), (0, 4), (1, 4)] {
    ///     matcher.add(0, channel, 7, 5000, 0, unit)?;
    ///     while matcher.step(0).is_ok() {}
    /// }
    /// assert_eq!(matcher.match_(0)?.messages, [1, 2]);
    /// assert_eq!(matcher.message(0)?.unit, 3);
    /// # Ok::<(), Refusal>(())
    /// ```
    pub fn add(
        &mut self,
        sender: u16,
        channel: u16,
        property: u32,
        cents: i64,
        day: u32,
        unit: u16,
    ) -> Result<Answer, Refusal> {
        Answer::from_number(host::add(&self.table, &mut self.lists, sender, channel, property, cents, day, unit))
    }

    /// One step of a sender.
    pub fn step(&mut self, sender: u16) -> Result<Answer, Refusal> {
        Answer::from_number(host::step(&self.table, &mut self.lists, sender))
    }

    /// Closes the books up to a day, that day included; it answers [`Answer::Closed`]. From then on messages of that
    /// day or of one before it are refused, and those on the board match on. The close day may come again, and no day
    /// before it.
    ///
    /// ```
    /// use gevnyusto::{Answer, Matcher, Refusal};
    ///
    /// // Rents and receipts, which leave; a chord of both, of one property.
    /// const RENTS: [u8; 20] = [2, 0, 1, 0, 2, 0, 12, 0, 14, 0, 18, 0, 0, 0, 0, 0, 2, 1, 0, 1];
    ///
    /// let mut matcher = Matcher::open(RENTS)?;
    /// matcher.add(0, 0, 7, -5000, 30, 0)?;
    /// while matcher.step(0).is_ok() {}
    /// assert_eq!(matcher.close(30), Ok(Answer::Closed));
    /// assert_eq!(matcher.add(0, 1, 7, 5000, 30, 0), Err(Refusal::DayClosed));
    /// matcher.add(0, 1, 7, 5000, 31, 0)?;
    /// while matcher.step(0).is_ok() {}
    /// assert_eq!(matcher.match_(0)?.messages, [0, 1]);
    /// assert_eq!(matcher.close(29), Err(Refusal::EarlierCloseDay));
    /// # Ok::<(), Refusal>(())
    /// ```
    pub fn close(&mut self, day: u32) -> Result<Answer, Refusal> {
        Answer::from_number(host::close(&self.table, &mut self.lists, day))
    }

    pub fn message(&self, number: u16) -> Result<Message, Refusal> {
        let mut out = [0; 8];
        refused(host::read_message(&self.table, &self.lists, number, &mut out))?;
        let statuses = [Status::Pending, Status::Claimed, Status::Woken, Status::Consumed];
        Ok(Message {
            channel: out[0] as u8,
            property: out[1] as u32,
            cents: out[2],
            day: out[6] as u32,
            unit: out[7] as u16,
            status: statuses[out[3] as usize],
            matched: held(out[4]),
            waker: held(out[5]),
        })
    }

    pub fn match_(&self, number: u16) -> Result<Match, Refusal> {
        let mut out = [0; 11];
        refused(host::read_match(&self.table, &self.lists, number, &mut out))?;
        let messages = out[3..][..out[1] as usize].iter().map(|&message| message as u16).collect();
        Ok(Match { chord: out[0] as u8, cents: out[2], messages })
    }

    /// The match on the sender's slip.
    pub fn reply(&self, sender: u16) -> Result<Option<u16>, Refusal> {
        let mut out = [0];
        refused(host::read_reply(&self.table, &self.lists, sender, &mut out))?;
        Ok(held(out[0]))
    }

    /// Whether every sender is idle, or blocked without a signal.
    pub fn quiet(&self) -> Result<bool, Refusal> {
        let mut out = [0];
        refused(host::quiet(&self.table, &self.lists, &mut out))?;
        Ok(out[0] != 0)
    }

    /// Plays the calls in order, with the tests of the board made once.
    pub fn replay(&mut self, calls: &[Call]) -> Result<Vec<Result<Answer, Refusal>>, Refusal> {
        let rows: Vec<_> = calls.iter().map(|call| call.row()).collect();
        let calls: Vec<u16> = rows.iter().flat_map(|row| row.0).collect();
        let numbers: Vec<u32> = rows.iter().flat_map(|row| row.1).collect();
        let amounts: Vec<i64> = rows.iter().map(|row| row.2).collect();
        let calls = host::Replay { calls: &calls, numbers: &numbers, amounts: &amounts };
        let mut answers = vec![0; rows.len()];
        refused(host::replay(&self.table, &mut self.lists, calls, &mut answers))?;
        Ok(answers.into_iter().map(Answer::from_number).collect())
    }

    /// How many messages and matches there are; they are numbered from 0.
    pub fn counts(&self) -> (u16, u16) {
        (self.lists.board[0], self.lists.board[1])
    }

    /// The day up to which the books are closed; none where no day is closed.
    pub fn close_day(&self) -> Option<u32> {
        (self.lists.board[host::HAS_CLOSE] == 1).then(|| self.lists.keys[host::CLOSE_DAY])
    }

    /// How many messages a sender has added; none where there is no such sender.
    pub fn added(&self, sender: u16) -> Option<u16> {
        self.lists.board[host::TALLIES..host::BACKOFFS].get(usize::from(sender)).copied()
    }

    /// The backoff table that the board was opened with.
    pub fn rests(&self) -> [u8; host::BACKOFF_ENTRIES] {
        std::array::from_fn(|at| self.lists.board[host::BACKOFFS + at] as u8)
    }
}

/// One table of two. The map has for each channel of the second the channel of the first that it becomes, of the same
/// kind and no other's, or `None` for a new one. New channels follow the first's in their order; the first's chords
/// keep their numbers and the second's follow.
///
/// A [`Matcher`] of the merged table answers as one of the first does, as long as messages are added only to channels
/// of the first that no chord of the second names.
///
/// ```
/// use gevnyusto::{Matcher, Refusal, merge_tables};
///
/// // One channel that leaves and one that waits; a chord of both, with equal property numbers.
/// const FIRST: [u8; 20] = [2, 0, 1, 0, 2, 0, 12, 0, 14, 0, 18, 0, 0, 1, 0, 0, 2, 1, 0, 1];
/// // Two channels that leave, a chord of both.
/// const SECOND: [u8; 20] = [2, 0, 1, 0, 2, 0, 12, 0, 14, 0, 18, 0, 0, 0, 0, 0, 2, 0, 0, 1];
///
/// let merged = merge_tables(&FIRST, &SECOND, &[Some(0), None])?;
/// assert_eq!(merged[12..], [0, 1, 0, 0, 0, 2, 1, 2, 0, 2, 0, 0, 1, 0, 2]);
/// let mut matcher = Matcher::open(merged)?;
/// matcher.add(0, 2, 7, 5000, 0, 0)?;
///
/// assert_eq!(merge_tables(&FIRST, &SECOND, &[Some(1), None]), Err(Refusal::ChannelMap));
/// # Ok::<(), Refusal>(())
/// ```
pub fn merge_tables(first: &[u8], second: &[u8], map: &[Option<u8>]) -> Result<Vec<u8>, Refusal> {
    // A 255 would be a new channel; no table has a channel 254 either.
    let byte = |channel: &Option<u8>| channel.map_or(host::NEW_CHANNEL, |channel| channel.min(254));
    let map: Vec<u8> = map.iter().map(byte).collect();
    let mut table = vec![0; host::TABLE_BYTES];
    refused(host::merge_tables(first, second, &map, &mut table))?;
    table.truncate(table_len(&table));
    Ok(table)
}

/// The length that a table's header says: past its members.
fn table_len(table: &[u8]) -> usize {
    let number = |at: usize| usize::from(u16::from_le_bytes([table[at], table[at + 1]]));
    number(10) + number(4)
}

impl Call {
    /// Kind, sender, channel and unit; property and day; cents.
    fn row(self) -> ([u16; 4], [u32; 2], i64) {
        match self {
            Call::Add { sender, channel, property, cents, day, unit } => {
                ([host::ADD, sender, channel, unit], [property, day], cents)
            }
            Call::Step { sender } => ([host::STEP, sender, 0, 0], [0, 0], 0),
            Call::Close { day } => ([host::CLOSE, 0, 0, 0], [0, day], 0),
        }
    }
}

fn refused(number: u8) -> Result<(), Refusal> {
    if number == 0 { Ok(()) } else { Err(Refusal::from_number(number)) }
}

/// A number kept plus 1, 0 for none.
fn held(number: i64) -> Option<u16> {
    (number > 0).then(|| (number - 1) as u16)
}
