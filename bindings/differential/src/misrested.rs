//! Openings, steps and boards by backoff tables, with a fault put in.

use crate::backoffs::rests;
use crate::calls::{Calls, is_refusal, refused};
use crate::plain_rust::Reference;
use reference::backoff::{BUILT_IN, ENTRIES, MOST_RESTS};
use reference::{Backoff, Lists, NUMBERS, RESTS};

/// The faults that are here.
pub const FAULTS: [&str; 19] = [
    "next-entry",
    "entry-16-for-15",
    "entry-15-for-16",
    "beyond-16",
    "built-in-read",
    "built-in-kept",
    "rests-65",
    "rests-64",
    "first-entry",
    "last-falls",
    "empty-as-none",
    "length-modulo",
    "rests-before-table",
    "length-before-rests",
    "sound-65",
    "sound-falls",
    "sound-low-byte",
    "rests-written",
    "half-opened",
];

/// The eight chosen messages of the first sender, which are open while it is idle.
const CHOSEN: std::ops::Range<usize> = 15..23;

const MOST: u16 = MOST_RESTS as u16;

/// A board opened with the fault.
pub fn open(fault: &str, inner: &mut Reference, table: &[u8], given: Option<&[u8]>, board: &mut [u16]) -> u8 {
    let passes = given.is_none_or(|bytes| Backoff::given(bytes).is_some());
    let bytes = given.unwrap_or(&BUILT_IN.0);
    match fault {
        "empty-as-none" if bytes.is_empty() => inner.open(table, None, board),
        "rests-before-table" if !passes => 21,
        "length-before-rests" if board.len() != NUMBERS && inner.table_refusal(table) == 0 => 30,
        "rests-64" if bytes.contains(&MOST_RESTS) => inner.open(table, Some(&[]), board),
        "first-entry" if bytes.first() > Some(&0) => inner.open(table, Some(&[]), board),
        "built-in-kept" if passes => inner.open(table, None, board),
        "half-opened" if passes && board.len() == NUMBERS => {
            let found = board[CHOSEN].to_vec();
            let number = inner.open(table, given, board);
            board[CHOSEN].copy_from_slice(&found);
            number
        }
        _ => match mended(fault, bytes).filter(|mended| !passes && Backoff::given(mended).is_some()) {
            Some(mended) => open_with(inner, table, &mended, bytes, board),
            None => inner.open(table, given, board),
        },
    }
}

/// A table that the fault takes for the one given.
fn mended(fault: &str, bytes: &[u8]) -> Option<Vec<u8>> {
    match fault {
        "rests-65" => {
            Some(bytes.iter().map(|&rests| if rests == MOST_RESTS + 1 { MOST_RESTS } else { rests }).collect())
        }
        "last-falls" if bytes.len() == ENTRIES => {
            let last = bytes[ENTRIES - 1].max(bytes[ENTRIES - 2]);
            Some([&bytes[..ENTRIES - 1], &[last]].concat())
        }
        "length-modulo" if bytes.len() % 256 == ENTRIES => Some(bytes[..ENTRIES].to_vec()),
        _ => None,
    }
}

/// A board opened with a table that passes; what it keeps are the bytes given.
fn open_with(inner: &mut Reference, table: &[u8], mended: &[u8], bytes: &[u8], board: &mut [u16]) -> u8 {
    let number = inner.open(table, Some(mended), board);
    if number == 0 {
        board[RESTS..].iter_mut().zip(bytes).for_each(|(entry, &rests)| *entry = rests.into());
    }
    number
}

/// The table that the fault reads in the place of the board's, after the `again` of that number.
pub fn read(fault: &str, lists: &Lists, again: usize) -> Option<Vec<u16>> {
    let mut table = rests(lists).to_vec();
    match fault {
        "next-entry" => table.copy_within(1.., 0),
        "entry-16-for-15" => table[14] = table[15],
        "entry-15-for-16" => table[15] = table[14],
        "beyond-16" if again > ENTRIES => table.fill(rests(lists)[(again - 1) % ENTRIES]),
        "built-in-read" => table = BUILT_IN.0.map(u16::from).to_vec(),
        _ => return None,
    }
    Some(table)
}

/// The table of a sound board that the fault takes for one of no sound board, where a call was refused so.
pub fn sound_rests(fault: &str, lists: &Lists, answer: u32) -> Option<Vec<u16>> {
    if answer != refused(30) || lists.board.len() != NUMBERS {
        return None;
    }
    let table = rests(lists).iter().copied();
    let taken: Vec<u16> = match fault {
        "sound-65" => table.map(|rests| if rests == MOST + 1 { MOST } else { rests }).collect(),
        "sound-falls" if table.clone().all(|rests| rests <= MOST) => vec![MOST; ENTRIES],
        "sound-low-byte" => table.map(|rests| rests % 256).collect(),
        _ => return None,
    };
    (taken.is_sorted() && taken[ENTRIES - 1] <= MOST).then_some(taken)
}

/// An accepted add writes the built-in table.
pub fn write(fault: &str, lists: &mut Lists, answer: u32) {
    if fault == "rests-written" && !is_refusal(answer) && answer >> 16 == 0 {
        lists.board[RESTS..].copy_from_slice(&BUILT_IN.0.map(u16::from));
    }
}
