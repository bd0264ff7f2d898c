//! Merges of two tables into one buffer.

use crate::report::{Target, heading, row};
use crate::tables;
use crate::timing::{CALL_ROUNDS, Times, least, timed};
use gevnyusto::host;
use reference::Equality;
use reference::merge::{NEW, merge};
use std::hint::black_box;

/// So many merges are timed at once, as one is too short for the clock.
const AT_ONCE: usize = 100;

/// Sixteen chords of four channels out of eight.
fn large() -> Vec<u8> {
    let equality = |chord: u8| if chord.is_multiple_of(2) { Equality::Property } else { Equality::Any };
    let chords: Vec<_> = (0..16).map(|chord| ([0, 1, 3, 6].map(|far| (chord + far) % 8), equality(chord))).collect();
    tables::table(&[0, 0, 1, 0, 1, 0, 0, 1], &chords)
}

pub fn merges() {
    heading("6 merge of two tables", "ns", "ratio");
    let second = tables::table(&[0, 1, 0], &[([1, 2], Equality::Property)]);
    let small = times(tables::P, &second, &[0, NEW, NEW]);
    row("gv_merge_tables, 2 and 3 channels, a chord each", small, small.ratio(), Target::None);
    let large = times(&large(), &large(), &[0, NEW, 2, NEW, 4, NEW, 6, NEW]);
    row("gv_merge_tables, 8 channels, 16 chords of 4 each", large, large.ratio(), Target::None);
}

fn times(first: &[u8], second: &[u8], map: &[u8]) -> Times {
    let (mut proved, mut plain) = ([0; host::TABLE_BYTES], [0; host::TABLE_BYTES]);
    let mut by_proved = || host::merge_tables(black_box(first), second, map, black_box(&mut proved));
    let mut by_plain = || merge(black_box(first), second, map, black_box(&mut plain));
    let best = least(CALL_ROUNDS, || timed(|| many(&mut by_proved)), || timed(|| many(&mut by_plain)));
    assert_eq!((by_proved(), by_plain()), (0, 0));
    assert_eq!(proved, plain);
    best.map(|ns| ns / AT_ONCE as f64)
}

fn many(merge: &mut impl FnMut() -> u8) {
    for _ in 0..AT_ONCE {
        black_box(merge());
    }
}
