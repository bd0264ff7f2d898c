//! Backoff tables as customers give them, such as pass and such as do not, and what they decide of a schedule's steps.

use crate::calls::Call;
use crate::random::Random;
use reference::backoff::{BUILT_IN, ENTRIES, MOST_RESTS};
use reference::{Lists, RESTS, SENDER_NUMBERS};

const AGAIN: u32 = 12;

/// How a table that passes comes.
#[derive(Clone, Copy, PartialEq, Eq)]
pub enum Kind {
    None,
    BuiltIn,
    Zeros,
    Most,
    Equal,
    Steep,
    Short,
    Rising,
}

pub const KINDS: [(Kind, &str); 8] = [
    (Kind::None, "no table"),
    (Kind::BuiltIn, "the built-in table"),
    (Kind::Zeros, "all 0"),
    (Kind::Most, "all 64"),
    (Kind::Equal, "all equal"),
    (Kind::Steep, "0 and then 64"),
    (Kind::Short, "short rests"),
    (Kind::Rising, "rising rests"),
];

impl Kind {
    /// The bytes to give; none for none.
    pub fn bytes(self, random: &mut Random) -> Option<Vec<u8>> {
        let rests = match self {
            Kind::None => return None,
            Kind::BuiltIn => BUILT_IN.0,
            Kind::Zeros => [0; ENTRIES],
            Kind::Most => [MOST_RESTS; ENTRIES],
            Kind::Equal => [1 + random.below(12) as u8; ENTRIES],
            Kind::Steep => {
                let from = 1 + random.below(ENTRIES - 1);
                std::array::from_fn(|at| if at < from { 0 } else { MOST_RESTS })
            }
            Kind::Short => rising(random, 3, 2),
            Kind::Rising => rising(random, 8, 5),
        };
        Some(rests.to_vec())
    }
}

/// A first entry above 0 and at most that, and steps below the second number; at most 64.
fn rising(random: &mut Random, first: usize, steps: usize) -> [u8; ENTRIES] {
    let mut entry = 1 + random.below(first);
    std::array::from_fn(|_| {
        entry = (entry + random.below(steps)).min(MOST_RESTS.into());
        entry as u8
    })
}

/// The board's own table; none of lists without such numbers.
pub fn rests(lists: &Lists) -> &[u16] {
    lists.board.get(RESTS..).unwrap_or(&[])
}

/// The entry, from 1, that is read after the `again` of that number.
pub fn entry_of(again: usize) -> usize {
    again.min(ENTRIES)
}

pub fn built_in(entry: usize) -> u16 {
    BUILT_IN.0[entry - 1].into()
}

/// Lengths that are refused, some of them 16 by their last byte or their last two.
const LENGTHS: [usize; 6] = [0, 15, 17, 255, 272, 65_552];
/// The last entry, or all from one on, are that number.
const OVER: [(&str, bool, u8); 4] = [
    ("a last 65", false, 65),
    ("a last 255", false, 255),
    ("65 from one on", true, 65),
    ("255 from one on", true, 255),
];

fn of_length(length: usize) -> String {
    format!("{length} bytes")
}

fn of_fall(entry: usize) -> String {
    format!("entry {entry} one less")
}

/// All that is wrong with tables that do not pass.
pub fn grounds() -> Vec<String> {
    let lengths = LENGTHS.map(of_length).into_iter();
    let falls = (2..=ENTRIES).map(of_fall);
    lengths.chain(falls).chain(OVER.map(|(what, ..)| what.to_string())).collect()
}

/// A table that does not pass for one reason alone, and what that is.
pub fn damaged(random: &mut Random) -> (String, Vec<u8>) {
    let mut rests = rising(random, 8, 5).to_vec();
    match random.below(3) {
        0 => {
            let (length, last) = (random.pick(&LENGTHS), rests[ENTRIES - 1]);
            rests.resize(length, last);
            (of_length(length), rests)
        }
        1 => {
            let entry = 2 + random.below(ENTRIES - 1);
            rests[entry - 1] = rests[entry - 2] - 1;
            (of_fall(entry), rests)
        }
        _ => {
            let (what, many, number) = random.pick(&OVER);
            let from = if many { random.below(ENTRIES - 1) } else { ENTRIES - 1 };
            rests[from..].fill(number);
            (what.to_string(), rests)
        }
    }
}

const OF_AGAINS: [&str; 7] = [
    "a first again with rests",
    "the 17th again or a later one",
    "rests where the built-in table has none",
    "none where the built-in table has some",
    "more rests than the built-in table's",
    "fewer rests than the built-in table's",
    "64 rests",
];
/// A step that rests by the board's table and would not by the built-in one.
pub const PAST_BUILT_IN: &str = "a rest past the built-in table's";

fn read(entry: usize) -> String {
    format!("entry {entry} read")
}

/// A board opened so for a schedule, or accepted so in an excursion.
pub fn opened(said: &str, kind: Kind) -> String {
    let what = KINDS.iter().find(|(it, _)| *it == kind).map_or("", |(_, what)| what);
    format!("{said} with {what}")
}

/// All that backoff tables can decide.
pub fn by_rests() -> Vec<String> {
    let whats = OF_AGAINS.iter().chain([&PAST_BUILT_IN]).map(|what| what.to_string());
    whats.chain((1..=ENTRIES).map(read)).chain(KINDS.map(|(kind, _)| opened("opened", kind))).collect()
}

/// What a call on those lists is, with that answer: none of these unless it is a step that answers `again`.
pub fn decided(lists: &Lists, call: Call, answer: u32) -> Vec<String> {
    let Call::Step { sender } = call else { return Vec::new() };
    if answer >> 16 != AGAIN {
        return Vec::new();
    }
    let again = 1 + usize::from(lists.board[2 + SENDER_NUMBERS * usize::from(sender) + 12]);
    let entry = entry_of(again);
    let (rests, usual) = (rests(lists)[entry - 1], built_in(entry));
    let are = [
        again == 1 && rests > 0,
        again > ENTRIES,
        rests > 0 && usual == 0,
        rests == 0 && usual > 0,
        rests > usual,
        rests < usual,
        rests == MOST_RESTS.into(),
    ];
    let named = OF_AGAINS.into_iter().zip(are).filter(|(_, is)| *is).map(|(what, _)| what.to_string());
    named.chain([read(entry)]).collect()
}

#[cfg(test)]
mod tests {
    use super::*;
    use reference::Backoff;

    #[test]
    fn kinds_pass_and_damaged_ones_do_not() {
        let mut random = Random::new(1);
        for turn in 0..4_000 {
            let given = KINDS[turn % KINDS.len()].0.bytes(&mut random);
            assert!(given.is_none_or(|bytes| Backoff::given(&bytes).is_some()));
            let (ground, bytes) = damaged(&mut random);
            assert!(Backoff::given(&bytes).is_none() && grounds().contains(&ground), "{ground} {bytes:?}");
        }
    }

    #[test]
    fn agains_named() {
        let mut lists = Lists::default();
        let mut named = |retries: u16, rests: u16| {
            lists.board[2 + SENDER_NUMBERS * 3 + 12] = retries;
            lists.board[RESTS..].fill(rests);
            decided(&lists, Call::Step { sender: 3 }, AGAIN << 16).join(", ")
        };
        assert_eq!(named(0, 0), "entry 1 read");
        let more = "rests where the built-in table has none, more rests than the built-in table's";
        assert_eq!(named(0, 5), format!("a first again with rests, {more}, entry 1 read"));
        let none = "none where the built-in table has some, fewer rests than the built-in table's";
        assert_eq!(named(1, 0), format!("{none}, entry 2 read"));
        assert_eq!(named(15, 64), "more rests than the built-in table's, 64 rests, entry 16 read");
        assert_eq!(named(16, 32), "the 17th again or a later one, entry 16 read");
        assert_eq!(named(255, 31), format!("the 17th again or a later one, {}, entry 16 read", OF_AGAINS[5]));
        assert!(decided(&lists, Call::Step { sender: 3 }, 13 << 16).is_empty());
        assert!(decided(&lists, Call::Close { day: 3 }, AGAIN << 16).is_empty());
    }
}
