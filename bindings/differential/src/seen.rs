//! Counts of what was lent to the calls, of refused calls that left it as found, and of what days, units, words,
//! closes, shares and backoff tables decided.

use crate::backoffs::by_rests;
use crate::closes::by_closes;
use crate::edited::by_edits;
use crate::looks::{BY_DAYS, BY_UNITS};
use crate::openings::by_openings;
use crate::random::LAST_BYTES;
use crate::recounts::{DECIDING, SORTS};
use crate::shares::by_shares;
use crate::words::BY_WORDS;
use std::collections::HashMap;

/// The lists of a board with their parts, and the lists of a replay's calls.
pub const LISTS: [&str; 5] = ["board", "bytes", "links", "keys", "cents"];
pub const PARTS: [&str; 15] = [
    "board",
    "channels of bytes",
    "statuses of bytes",
    "chords of bytes",
    "matches of links",
    "wakers of links",
    "members of links",
    "units of links",
    "properties of keys",
    "days of keys",
    "cents",
    "close flag of board",
    "close day of keys",
    "counts of board",
    "backoffs of board",
];
pub const ROWS: [&str; 3] = ["calls", "numbers", "amounts"];
/// Lengths that are not those of a list.
pub const LENGTHS: [&str; 4] = ["one longer", "one shorter", "empty", "one part shorter"];
/// Lists as they were before there were backoff tables, before there were counts, and before there was a close day.
pub const WITHOUT: [&str; 3] =
    ["board without the backoffs", "board without the counts", "board and keys without the close"];
/// Calls after which each list of a board is compared with what it was, number by number.
const AS_FOUND: [&str; 4] = ["refused calls", "refused replays", "refused opens", "reads"];
const DAMAGES: [&str; 4] = ["tables refused", "tables accepted", "numbers of no board", "numbers of no sound board"];

#[derive(Default)]
pub struct Seen(HashMap<String, u64>);

impl Seen {
    pub fn note(&mut self, what: impl Into<String>) {
        *self.0.entry(what.into()).or_default() += 1;
    }

    fn of(&self, whats: Vec<String>) -> Vec<(String, u64)> {
        let count = |what: String| {
            let times = self.0.get(&what).copied().unwrap_or(0);
            (what, times)
        };
        whats.into_iter().map(count).collect()
    }

    /// All that may be noted, by sort.
    pub fn counts(&self) -> [(&'static str, Vec<(String, u64)>); 14] {
        let lengths = |list: &&str| LENGTHS.map(|length| format!("{list} {length}"));
        let lengths = LISTS.iter().chain(&ROWS).flat_map(lengths).chain(WITHOUT.map(String::from));
        // Any property, any day, any close day and any unit is one of a sound board.
        let any_fits = |part: &str| part.ends_with("keys") || part.starts_with("units");
        let unsound = PARTS.iter().filter(|part| !any_fits(part)).map(|part| format!("{part} refused"));
        // And no other count of a sender.
        let any_may_fit = PARTS.iter().filter(|part| !part.starts_with("counts"));
        let changed = any_may_fit.map(|part| format!("{part} accepted")).chain(unsound);
        let recounts = SORTS.map(|(_, what)| what).into_iter().chain(DECIDING);
        [
            ("every list as found", self.of(AS_FOUND.map(String::from).to_vec())),
            ("damaged", self.of(DAMAGES.map(String::from).to_vec())),
            ("last bytes", self.of(LAST_BYTES.map(last_byte_of).to_vec())),
            ("of another length", self.of(lengths.collect())),
            ("one number changed", self.of(changed.collect())),
            ("looks by days", self.of(BY_DAYS.map(String::from).to_vec())),
            ("looks by units", self.of(BY_UNITS.map(String::from).to_vec())),
            ("looks by words", self.of(BY_WORDS.map(String::from).to_vec())),
            ("by closes", self.of(by_closes())),
            ("by shares", self.of(by_shares())),
            ("counts set by the host", self.of(recounts.map(String::from).collect())),
            ("by rests", self.of(by_rests())),
            ("openings", self.of(by_openings())),
            ("backoffs set by the host", self.of(by_edits())),
        ]
    }
}

/// A table with that last byte of a chord.
pub fn last_byte_of(byte: u8) -> String {
    format!("{byte} {}", if byte > 2 { "refused" } else { "accepted" })
}
