//! The table bytes: 01's reader, and what the steps want to know of each chord.

use crate::answer::Refusal;

pub const HEADER: usize = 12;

/// What the messages of a chord must have equal; its number is the last byte of the chord's record.
#[derive(Clone, Copy, Debug, Default, PartialEq, Eq)]
pub enum Equality {
    #[default]
    Any,
    Property,
    /// Property and unit.
    Unit,
}

impl Equality {
    pub fn of(byte: u8) -> Option<Equality> {
        [Equality::Any, Equality::Property, Equality::Unit].get(usize::from(byte)).copied()
    }
}

/// A rule: the channels of its members, in order.
#[derive(Clone, Copy, Debug, Default)]
pub struct Chord {
    pub len: u8,
    pub equality: Equality,
    pub channels: [u8; 8],
    /// The first member of a waiting channel.
    pub waiting: Option<u8>,
}

impl Chord {
    pub fn members(&self) -> &[u8] {
        &self.channels[..self.len as usize]
    }

    /// The first member of that channel.
    pub fn first_of(&self, channel: u8) -> Option<usize> {
        self.members().iter().position(|&member| member == channel)
    }
}

#[derive(Clone, Debug)]
pub struct Table {
    pub channel_count: u8,
    pub chord_count: u8,
    chords: [Chord; 32],
    /// Bit c: channel c is waiting.
    waiting: u16,
    /// For each channel a bit for each chord that names it.
    naming: [u32; 16],
}

/// The counts at a table's head.
#[derive(Clone, Copy, Debug)]
pub struct Header {
    pub channels: usize,
    pub chords: usize,
    pub members: usize,
}

/// An accepted table's bytes after the header: each channel's kind, each chord's record, the members.
#[derive(Clone, Copy, Debug)]
pub struct Parts<'a> {
    pub channels: &'a [u8],
    pub chords: &'a [[u8; 4]],
    pub members: &'a [u8],
}

/// 0 if the table is accepted, else the number 1 to 7.
pub fn table_refusal(bytes: &[u8]) -> Refusal {
    Parts::read(bytes).err().unwrap_or(0)
}

/// Table bytes from each channel's kind, and each chord's channels and what it wants equal.
pub fn table_bytes<M: AsRef<[u8]>>(kinds: &[u8], chords: &[(M, Equality)]) -> Vec<u8> {
    let (mut records, mut members) = (Vec::new(), Vec::new());
    for (channels, equality) in chords {
        let channels = channels.as_ref();
        records.extend((members.len() as u16).to_le_bytes());
        records.extend([channels.len() as u8, *equality as u8]);
        members.extend(channels);
    }
    let header = Header { channels: kinds.len(), chords: chords.len(), members: members.len() };
    [&header.to_bytes(), kinds, &records, &members].concat()
}

impl Parts<'_> {
    pub fn read(bytes: &[u8]) -> Result<Parts<'_>, Refusal> {
        let header = Header::read(bytes)?;
        let (channels, rest) = bytes[HEADER..].split_at(header.channels);
        let (chords, members) = rest.split_at(4 * header.chords);
        let (chords, _) = chords.as_chunks();
        if channels.iter().any(|&kind| kind > 1) {
            return Err(4);
        }
        judge_chords(chords, header.members)?;
        if members.iter().any(|&channel| channel as usize >= header.channels) {
            return Err(7);
        }
        Ok(Parts { channels, chords, members })
    }
}

impl Table {
    pub fn read(bytes: &[u8]) -> Result<Table, Refusal> {
        Parts::read(bytes).map(Table::build)
    }

    fn build(parts: Parts) -> Table {
        let Parts { channels, chords, mut members } = parts;
        let waiting = channels.iter().enumerate().fold(0, |mask, (c, &kind)| mask | u16::from(kind) << c);
        let (channel_count, chord_count) = (channels.len() as u8, chords.len() as u8);
        let mut table = Table { channel_count, chord_count, chords: Default::default(), waiting, naming: [0; 16] };
        for (number, record) in chords.iter().enumerate() {
            let (own, rest) = members.split_at(record[2] as usize);
            members = rest;
            table.put_chord(number, own, Equality::of(record[3]).unwrap_or_default());
        }
        table
    }

    fn put_chord(&mut self, number: usize, members: &[u8], equality: Equality) {
        let mut chord = Chord { len: members.len() as u8, equality, ..Chord::default() };
        chord.channels[..members.len()].copy_from_slice(members);
        chord.waiting = members.iter().position(|&channel| self.is_waiting(channel)).map(|at| at as u8);
        for &channel in members {
            self.naming[channel as usize] |= 1 << number;
        }
        self.chords[number] = chord;
    }

    pub fn chord(&self, number: u8) -> &Chord {
        &self.chords[number as usize]
    }

    pub fn is_waiting(&self, channel: u8) -> bool {
        self.waiting >> channel & 1 == 1
    }

    /// The first chord from `start` on that names the channel.
    pub fn chord_naming(&self, channel: u8, start: u8) -> Option<u8> {
        let left = u64::from(self.naming[channel as usize]) >> start << start;
        (left != 0).then(|| left.trailing_zeros() as u8)
    }
}

impl Header {
    fn read(bytes: &[u8]) -> Result<Header, Refusal> {
        if bytes.len() < HEADER {
            return Err(1);
        }
        let number = |at: usize| u16::from_le_bytes([bytes[2 * at], bytes[2 * at + 1]]) as usize;
        let header = Header { channels: number(0), chords: number(1), members: number(2) };
        if !header.in_range() {
            return Err(2);
        }
        if header.places() != [number(3), number(4), number(5)] || bytes.len() != header.table_len() {
            return Err(3);
        }
        Ok(header)
    }

    pub fn in_range(&self) -> bool {
        (1..=16).contains(&self.channels) && self.chords <= 32 && self.members <= 256
    }

    /// Where channels, chords and members begin.
    fn places(&self) -> [usize; 3] {
        let chords = HEADER + self.channels;
        [HEADER, chords, chords + 4 * self.chords]
    }

    pub fn table_len(&self) -> usize {
        self.places()[2] + self.members
    }

    pub fn to_bytes(&self) -> [u8; HEADER] {
        let [channels, chords, members] = self.places();
        let numbers = [self.channels, self.chords, self.members, channels, chords, members];
        let mut bytes = [0; HEADER];
        for (to, number) in bytes.chunks_exact_mut(2).zip(numbers) {
            to.copy_from_slice(&(number as u16).to_le_bytes());
        }
        bytes
    }
}

/// Each chord starts where the one before it ended; the last ends at `members`.
fn judge_chords(chords: &[[u8; 4]], members: usize) -> Result<(), Refusal> {
    let mut next = 0;
    for record in chords {
        let first = u16::from_le_bytes([record[0], record[1]]) as usize;
        if first != next || !(1..=8).contains(&record[2]) || Equality::of(record[3]).is_none() {
            return Err(5);
        }
        next += record[2] as usize;
    }
    if next == members { Ok(()) } else { Err(6) }
}
