//! Why a merge is refused, told from what is merged, so that it can be counted what a run has met.

use crate::calls::Merge;
use reference::merge::NEW;
use reference::table::Parts;
use std::collections::HashMap;

/// Where a merge may be refused, in the order in which that is checked.
const PLACES: [&str; 5] = ["the first table", "the second table", "the map", "the counts", "the buffer"];
const MAP_GROUNDS: [&str; 4] = ["another length", "a channel not there", "a channel twice", "another kind"];
const COUNT_GROUNDS: [&str; 4] = ["17 channels", "more channels", "33 chords", "more chords"];
const EDGES: [&str; 5] = ["16 channels", "32 chords", "412 bytes", "room for just the table", "room for one byte less"];

/// Merges of chords that want equal units.
const CARRYING: [&str; 2] = ["equal units of the first table", "equal units of the second table"];

pub struct Ground {
    place: usize,
    pub number: u8,
    words: String,
}

/// Channels, chords and members of two accepted tables merged.
pub fn merged_counts(first: &Parts, second: &Parts, map: &[u8]) -> [usize; 3] {
    let new = map.iter().filter(|&&to| to == NEW).count();
    let chords = first.chords.len() + second.chords.len();
    [first.channels.len() + new, chords, first.members.len() + second.members.len()]
}

pub fn table_len([channels, chords, members]: [usize; 3]) -> usize {
    12 + channels + 4 * chords + members
}

/// All grounds on which a merge into that much room can be refused, in the order of their places. Of a refused table's
/// map only what no table could mend is one.
pub fn grounds(merge: &Merge, room: usize) -> Vec<Ground> {
    let (first, second) = (Parts::read(&merge.first), Parts::read(&merge.second));
    let mut grounds = Vec::new();
    let mut note = |place: usize, number: u8, words: String| grounds.push(Ground { place, number, words });
    for (place, table) in [&first, &second].into_iter().enumerate() {
        if let Err(number) = *table {
            note(place, number, format!("{} {number}", PLACES[place]));
        }
    }
    let (Ok(first), Ok(second)) = (first, second) else {
        if merge.map.is_empty() || merge.map.iter().any(|to| (16..NEW).contains(to)) {
            note(2, 17, String::new());
        }
        return grounds;
    };
    let counts = merged_counts(&first, &second, &merge.map);
    let wrong = map_faults(first.channels, second.channels, &merge.map);
    for (ground, _) in MAP_GROUNDS.iter().zip(wrong).filter(|(_, wrong)| *wrong) {
        note(2, 17, format!("the map: {ground}"));
    }
    let large = [counts[0] == 17, counts[0] > 17, counts[1] == 33, counts[1] > 33];
    for (ground, _) in COUNT_GROUNDS.iter().zip(large).filter(|(_, large)| *large) {
        note(3, 18, format!("the counts: {ground}"));
    }
    if room < table_len(counts) {
        note(4, 31, PLACES[4].to_string());
    }
    grounds
}

/// In the order of `MAP_GROUNDS`.
fn map_faults(first: &[u8], second: &[u8], map: &[u8]) -> [bool; 4] {
    let named: Vec<usize> = map.iter().filter(|&&to| to != NEW).map(|&to| to.into()).collect();
    let twice = |channel: usize| named.iter().filter(|&&to| to == channel).count() > 1;
    let joins_kinds = |(&to, kind): (&u8, &u8)| to != NEW && first.get(usize::from(to)).is_some_and(|it| it != kind);
    [
        map.len() != second.len(),
        named.iter().any(|&to| to >= first.len()),
        (0..first.len()).any(twice),
        map.iter().zip(second).any(joins_kinds),
    ]
}

/// How often a run has met what it is to meet.
#[derive(Default)]
pub struct Met(HashMap<String, u64>);

impl Met {
    fn note(&mut self, words: &str) {
        match self.0.get_mut(words) {
            Some(times) => *times += 1,
            None => drop(self.0.insert(words.to_string(), 1)),
        }
    }

    /// A refused merge: its ground, if there is no other of that number, and that a later one had to wait.
    pub fn refused(&mut self, grounds: &[Ground]) {
        let [ground, later @ ..] = grounds else { return };
        match later.iter().find(|it| it.place != ground.place) {
            Some(it) if it.place == ground.place + 1 => self.note(&before(ground.place)),
            _ => {}
        }
        if later.first().is_none_or(|it| it.place != ground.place) {
            self.note(&ground.words);
        }
    }

    /// An accepted merge, or one that wants room only.
    pub fn fitting(&mut self, counts: [usize; 3], room: usize) {
        let len = table_len(counts);
        if room >= len {
            self.note("accepted");
        }
        let edges = [counts[0] == 16, counts[1] == 32, len == 412, room == len, room + 1 == len];
        for (edge, _) in EDGES.iter().zip(edges).filter(|(_, met)| *met) {
            self.note(edge);
        }
    }

    /// An accepted merge, by which of its tables want equal units.
    pub fn carrying(&mut self, tables: [bool; 2]) {
        for (table, _) in CARRYING.iter().zip(tables).filter(|(_, wants)| *wants) {
            self.note(table);
        }
    }

    /// What is to be met, and how often it was.
    pub fn counts(&self) -> Vec<(String, u64)> {
        let tables = PLACES[..2].iter().flat_map(|place| (1..=7).map(move |number| format!("{place} {number}")));
        let map = MAP_GROUNDS.iter().map(|ground| format!("the map: {ground}"));
        let counts = COUNT_GROUNDS.iter().map(|ground| format!("the counts: {ground}"));
        let rest = ["the buffer", "accepted"].iter().chain(&EDGES).chain(&CARRYING).map(|words| words.to_string());
        let words = tables.chain(map).chain(counts).chain(rest).chain((0..4).map(before));
        words.map(|words| (words.clone(), self.0.get(&words).copied().unwrap_or(0))).collect()
    }
}

/// A merge that is refused for one place, and would be for the next.
fn before(place: usize) -> String {
    format!("{} before {}", PLACES[place], PLACES[place + 1])
}
