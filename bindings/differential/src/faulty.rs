//! The reference with a fault put in, to see that the comparison finds it.

use crate::calls::{Call, Calls, Merge, Read, is_refusal, refused};
use crate::closes::close_day;
use crate::looks::{LOOKED, Look, MISSED};
use crate::misclosed::{self, close_wrongly, refuse_by_sender};
use crate::mislooked::{look_wrongly, mark_wrongly, unseen};
use crate::misrested;
use crate::misshared;
use crate::plain_rust::Reference;
use crate::shares::counts;
use reference::board::{MESSAGES, SENDERS, WOKEN};
use reference::lists::{DAYS, STATUSES, UNITS, WAKERS};
use reference::table::HEADER;
use reference::{COUNTS, Equality, HAS_CLOSE, Lists, RESTS, Rows, SENDER_NUMBERS, Sent, Table};

const AGAIN: u32 = 12;

/// Kinds of faults by name, but for those of shares and of rests.
const OTHERS: [&str; 39] = [
    "answer",
    "list",
    "board",
    "refusal",
    "read",
    "reading",
    "replay",
    "table",
    "merge",
    "law",
    "number",
    "newest",
    "tie",
    "hand",
    "no-unit",
    "unit-alone",
    "unit-at-1",
    "unit-at-0",
    "mark",
    "last-byte",
    "past-the-count",
    "lowest-bit",
    "zero-word",
    "next-bit",
    "last-bit",
    "whole-word",
    "mark-past",
    "half-property",
    "half-unit",
    "close-day-open",
    "cents-first",
    "channel-last",
    "none-as-0",
    "none-as-any",
    "earlier-close",
    "equal-close",
    "close-signal",
    "unwritten-close",
    "close-sender",
];

/// All kinds of faults by name.
pub fn faults() -> impl Iterator<Item = &'static str> {
    OTHERS.into_iter().chain(misshared::FAULTS).chain(misrested::FAULTS)
}

/// Looks by another equality than the chord's: at which last byte, which one stands for it, and whether properties are
/// left out.
const MISJUDGED: [(&str, u8, u8, bool); 4] =
    [("no-unit", 2, 1, false), ("unit-alone", 2, 2, true), ("unit-at-1", 1, 2, false), ("unit-at-0", 0, 2, true)];

pub struct Faulty {
    inner: Reference,
    fault: String,
    calls: u64,
}

impl Faulty {
    pub fn new(fault: &str) -> Faulty {
        Faulty { inner: Reference::default(), fault: fault.to_string(), calls: 0 }
    }

    fn due(&self, fault: &str) -> bool {
        self.fault == fault && self.calls >= 1_234
    }

    /// What a call answers that was made on those lists and answered so, and is to be made wrongly.
    fn wrongly(&mut self, table: &[u8], lists: &mut Lists, before: Lists, call: Call, answer: u32) -> u32 {
        if self.fault == "refusal" && is_refusal(answer) {
            lists.links.iter_mut().last().into_iter().for_each(|link| *link ^= 1);
        }
        if let Some(answer) = self.rest_wrongly(table, lists, &before, call, answer) {
            return answer;
        }
        if misshared::is_let_through(&self.fault, &before, call, answer) {
            return self.call_with_sound_counts(table, lists, call);
        }
        match (call, answer >> 16) {
            (Call::Add { sent, .. }, _) if self.is_let_through(&before, sent, answer) => {
                self.call_with_none_closed(table, lists, call)
            }
            (Call::Add { sender, sent }, _) if misshared::FAULTS.contains(&self.fault.as_str()) => {
                misshared::refuse_wrongly(&self.fault, before, lists, sender, sent, answer)
            }
            (Call::Add { sent, .. }, _) => misclosed::refuse_wrongly(&self.fault, before, lists, sent, answer),
            (Call::Close { day }, _) => close_wrongly(&self.fault, &before, lists, day, answer),
            (_, LOOKED | MISSED) => self.look(table, lists, before, call, answer).unwrap_or(answer),
            (Call::Step { sender }, _) => step_wrongly(&self.fault, table, lists, sender.into(), answer),
        }
    }

    /// A call by another backoff table than the board's; none if the fault is no such one.
    fn rest_wrongly(
        &mut self,
        table: &[u8],
        lists: &mut Lists,
        before: &Lists,
        call: Call,
        answer: u32,
    ) -> Option<u32> {
        misrested::write(&self.fault, lists, answer);
        let again = call.sender().filter(|_| answer >> 16 == AGAIN);
        let again = again.map(|i| 1 + usize::from(before.board[2 + SENDER_NUMBERS * i + 12]));
        let read = again.and_then(|again| misrested::read(&self.fault, before, again));
        let other = read.or_else(|| misrested::sound_rests(&self.fault, before, answer))?;
        lists.copy(before);
        lists.board[RESTS..].copy_from_slice(&other);
        let answer = self.inner.call(table, lists, call);
        lists.board[RESTS..].copy_from_slice(&before.board[RESTS..]);
        Some(answer)
    }

    /// Whether it is an add of the close day, which the fault lets through.
    fn is_let_through(&self, before: &Lists, sent: Sent, answer: u32) -> bool {
        self.fault == "close-day-open" && answer == refused(19) && close_day(before) == Some(sent.day)
    }

    fn call_with_none_closed(&mut self, table: &[u8], lists: &mut Lists, call: Call) -> u32 {
        lists.board[HAS_CLOSE] = 0;
        let answer = self.inner.call(table, lists, call);
        lists.board[HAS_CLOSE] = 1;
        answer
    }

    /// A call while the counts are a sound board's; an accepted add counts.
    fn call_with_sound_counts(&mut self, table: &[u8], lists: &mut Lists, call: Call) -> u32 {
        let (mut counts, sender) = (counts(lists).to_vec(), call.sender().unwrap_or(0) % SENDERS);
        let sound = misshared::sound_counts(lists.board[0].min(MESSAGES as u16), sender);
        lists.board[COUNTS..RESTS].copy_from_slice(&sound);
        let answer = self.inner.call(table, lists, call);
        counts[sender] = counts[sender].wrapping_add((answer >> 16 == 0).into());
        lists.board[COUNTS..RESTS].copy_from_slice(&counts);
        answer
    }

    /// What a look answers that is made wrongly; none if the fault is no such one.
    fn look(&mut self, table: &[u8], lists: &mut Lists, before: Lists, call: Call, answer: u32) -> Option<u32> {
        let look = Look::before(&Table::read(table).ok()?, &before, call)?;
        if answer >> 16 == MISSED {
            mark_wrongly(&self.fault, &look, lists);
        }
        let unseen = unseen(&self.fault, &look);
        if !unseen.is_empty() || self.fault.starts_with("half-") {
            *lists = before;
            return Some(self.call_seeing_less(&unseen, table, lists, call));
        }
        match MISJUDGED.iter().find(|(fault, ..)| *fault == self.fault) {
            Some(&(_, byte, wrong, flat)) if look.equality as u8 == byte => {
                *lists = before;
                Some(self.misjudge(&with_last_byte(table, look.chord, wrong), lists, call, flat))
            }
            _ => look_wrongly(&self.fault, &look, lists, answer),
        }
    }

    /// A call under another table, perhaps as if all properties were equal.
    fn misjudge(&mut self, table: &[u8], lists: &mut Lists, call: Call, flat: bool) -> u32 {
        let properties = lists.keys[..DAYS].to_vec();
        if flat {
            lists.keys[..DAYS].fill(0);
        }
        let answer = self.inner.call(table, lists, call);
        lists.keys[..DAYS].copy_from_slice(&properties);
        answer
    }

    /// A look while those pending messages are woken ones, and of properties or units there are the low halves only.
    fn call_seeing_less(&mut self, unseen: &[usize], table: &[u8], lists: &mut Lists, call: Call) -> u32 {
        let Lists { bytes, links, keys, .. } = lists.clone();
        for message in unseen {
            lists.bytes[STATUSES + message] = WOKEN;
            lists.links[WAKERS + message] = 1;
        }
        match self.fault.as_str() {
            "half-property" => lists.keys[..DAYS].iter_mut().for_each(|property| *property &= 0xFFFF),
            "half-unit" => lists.links[UNITS..].iter_mut().for_each(|unit| *unit &= 0xFF),
            _ => {}
        }
        let answer = self.inner.call(table, lists, call);
        (lists.bytes, lists.links, lists.keys) = (bytes, links, keys);
        answer
    }
}

impl Calls for Faulty {
    fn table_refusal(&mut self, table: &[u8]) -> u8 {
        let refusal = self.inner.table_refusal(table);
        match refusal {
            5 if self.due("table") => 6,
            0 if self.due("last-byte") && wants_units(table) => 5,
            refusal => refusal,
        }
    }

    fn open(&mut self, table: &[u8], rests: Option<&[u8]>, board: &mut [u16]) -> u8 {
        let fault = if self.due(&self.fault) { self.fault.as_str() } else { "" };
        misrested::open(fault, &mut self.inner, table, rests, board)
    }

    fn call(&mut self, table: &[u8], lists: &mut Lists, call: Call) -> u32 {
        self.calls += 1;
        let before = self.due(&self.fault).then(|| lists.clone());
        let answer = self.inner.call(table, lists, call);
        before.map_or(answer, |before| self.wrongly(table, lists, before, call, answer))
    }

    fn replay(&mut self, table: &[u8], lists: &mut Lists, rows: &Rows, answers: &mut [u32]) -> u8 {
        let refusal = self.inner.replay(table, lists, rows, answers);
        if self.due("replay") && refusal == 0 {
            answers[0] += 1;
        }
        if self.due("close-sender") && refusal == 0 {
            refuse_by_sender(rows, answers);
        }
        refusal
    }

    fn read(&mut self, table: &[u8], lists: &mut Lists, read: Read, out: &mut [i64]) -> u8 {
        let refusal = self.inner.read(table, lists, read, out);
        if self.due("read") && refusal == 0 {
            out[0] += 1;
        }
        if self.due("reading") && refusal == 0 {
            lists.cents[1023] ^= 1;
        }
        refusal
    }

    fn merge(&mut self, merge: &Merge, out: &mut [u8]) -> u8 {
        self.calls += 1;
        let refusal = self.inner.merge(merge, out);
        if self.due("merge") && refusal == 0 {
            map_last_member_wrongly(out);
        }
        refusal
    }
}

/// Puts a claimed message back, counts a retry too many, leaves another chord, or answers another word.
fn step_wrongly(fault: &str, table: &[u8], lists: &mut Lists, sender: usize, answer: u32) -> u32 {
    let place = 2 + SENDER_NUMBERS * sender;
    match (fault, answer >> 16) {
        ("list", 3) => lists.bytes[STATUSES + usize::from(answer as u16)] = 0,
        ("board", 12) => lists.board[place + 12] += 1,
        ("law", 13) => leave_chord_count(&mut lists.board[place..][..SENDER_NUMBERS], table),
        ("answer", 13) => return 12 << 16,
        _ => {}
    }
    answer
}

fn with_last_byte(table: &[u8], chord: u8, byte: u8) -> Vec<u8> {
    let mut table = table.to_vec();
    let record = HEADER + usize::from(table[0]) + 4 * usize::from(chord);
    table[record + 3] = byte;
    table
}

fn wants_units(table: &[u8]) -> bool {
    Table::read(table).is_ok_and(|table| (0..table.chord_count).any(|it| table.chord(it).equality == Equality::Unit))
}

/// The chord of a sender that is not at work is open, but not how it depends on the table.
fn leave_chord_count(sender: &mut [u16], table: &[u8]) {
    if sender[0] != 1 {
        sender[7] = table[2].into();
    }
}

fn map_last_member_wrongly(table: &mut [u8]) {
    let number = |at: usize| usize::from(u16::from_le_bytes([table[at], table[at + 1]]));
    let (channels, members, end) = (number(0), number(4), number(10) + number(4));
    if members > 0 {
        table[end - 1] = (table[end - 1] + 1) % channels as u8;
    }
}
