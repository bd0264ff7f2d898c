//! Merged tables byte for byte, every refusal in its place, and the edges of the map, the counts and the buffer.

use crate::merge::{NEW, merge};
use crate::table::Equality::{Any, Property, Unit};
use crate::table::{table_bytes, table_refusal};

/// The longest table.
const MOST: usize = 412;
const P: &[u8] = &[2, 0, 1, 0, 2, 0, 12, 0, 14, 0, 18, 0, 0, 1, 0, 0, 2, 1, 0, 1];

/// So many leaving channels and no chord.
fn channels(count: usize) -> Vec<u8> {
    table_bytes::<&[u8]>(&vec![0; count], &[])
}

/// One leaving channel and so many chords, each of so many members.
fn chords(count: usize, members: usize) -> Vec<u8> {
    table_bytes(&[0], &vec![(vec![0; members], Any); count])
}

/// Table P with one byte changed or cut off, so that the reader gives that number.
fn refused(number: u8) -> Vec<u8> {
    let mut table = P.to_vec();
    match number {
        1 => table.truncate(11),
        2 => table[0] = 17,
        3 => table.truncate(19),
        4 => table[12] = 2,
        5 => table[16] = 9,
        6 => table[16] = 1,
        _ => table[19] = 2,
    }
    assert_eq!(table_refusal(&table), number);
    table
}

/// The number with a buffer of that length, which a refusal and the bytes past the merged table must keep.
fn number(first: &[u8], second: &[u8], map: &[u8], room: usize) -> u8 {
    let mut out = vec![0xA5; room];
    let number = merge(first, second, map, &mut out);
    let written = if number == 0 { merged(first, second, map).len() } else { 0 };
    assert!(out[written..].iter().all(|&byte| byte == 0xA5));
    number
}

fn merged(first: &[u8], second: &[u8], map: &[u8]) -> Vec<u8> {
    let mut out = [0; MOST];
    assert_eq!(merge(first, second, map, &mut out), 0);
    let count = |at: usize| usize::from(u16::from_le_bytes([out[at], out[at + 1]]));
    let len = 12 + count(0) + 4 * count(2) + count(4);
    assert_eq!(table_refusal(&out[..len]), 0);
    out[..len].to_vec()
}

#[test]
fn two_offices() {
    let second = table_bytes(&[1, 0, 1, 0], &[(vec![3, 0, 1, 0], Property), (vec![2], Any)]);
    let joined = table_bytes(&[0, 1, 1, 0], &[(vec![0, 1], Property), (vec![3, 1, 0, 1], Property), (vec![2], Any)]);
    assert_eq!(merged(P, &second, &[1, 0, NEW, NEW]), joined);
    let apart = [(vec![0, 1], Property), (vec![5, 2, 3, 2], Property), (vec![4], Any)];
    assert_eq!(merged(P, &second, &[NEW; 4]), table_bytes(&[0, 1, 1, 0, 1, 0], &apart));
}

#[test]
fn what_a_chord_wants_equal_is_carried() {
    let of = |channel: u8| [(vec![channel], Any), (vec![channel], Property), (vec![channel], Unit)];
    let table = table_bytes(&[0], &of(0));
    assert_eq!(merged(&table, &table, &[0]), table_bytes(&[0], &[of(0), of(0)].concat()));
    assert_eq!(merged(&table, &table, &[NEW]), table_bytes(&[0, 0], &[of(0), of(1)].concat()));
}

#[test]
fn nothing_added() {
    assert_eq!(merged(P, &channels(1), &[0]), P);
    assert_eq!(merged(P, P, &[0, 1]), table_bytes(&[0, 1], &[(vec![0, 1], Property), (vec![0, 1], Property)]));
}

#[test]
fn the_first_tables_number_comes_before_the_seconds() {
    for first in 1..=7 {
        assert_eq!(number(&refused(first), P, &[NEW; 2], MOST), first);
        for second in 1..=7 {
            assert_eq!(number(&refused(first), &refused(second), &[], 0), first);
        }
    }
}

#[test]
fn the_second_tables_number_comes_before_the_map() {
    for second in 1..=7 {
        assert_eq!(number(P, &refused(second), &[NEW; 2], MOST), second);
        assert_eq!(number(P, &refused(second), &[], 0), second);
        assert_eq!(number(P, &refused(second), &[254; 2], 0), second);
    }
}

#[test]
fn the_map_comes_before_the_counts() {
    assert_eq!(number(&channels(16), P, &[NEW; 2], MOST), 18);
    for map in [&[NEW; 3][..], &[NEW; 1], &[NEW, 16], &[NEW, 0]] {
        assert_eq!(number(&channels(16), P, map, MOST), 17);
    }
    assert_eq!(number(&chords(32, 1), P, &[0, NEW], MOST), 18);
    assert_eq!(number(&chords(32, 1), P, &[1, NEW], MOST), 17);
    assert_eq!(number(P, P, &[1, NEW], 0), 17);
}

#[test]
fn the_counts_come_before_the_buffer() {
    assert_eq!(number(&channels(16), &channels(1), &[NEW], 0), 18);
    assert_eq!(number(&chords(32, 8), &chords(1, 1), &[0], 0), 18);
    assert_eq!(number(P, P, &[0, 1], 0), 31);
}

#[test]
fn maps_of_another_length() {
    for (length, wanted) in [(0, 17), (1, 17), (2, 0), (3, 17), (16, 17), (256, 17)] {
        assert_eq!(number(P, P, &vec![NEW; length], MOST), wanted);
    }
    assert_eq!(number(P, &channels(1), &[], MOST), 17);
    assert_eq!(number(P, P, &[0, 1, NEW], MOST), 17);
}

#[test]
fn channels_that_are_not_there() {
    for (to, wanted) in [(3, 0), (4, 17), (5, 17), (16, 17), (128, 17), (254, 17), (255, 0)] {
        assert_eq!(number(&channels(4), &channels(1), &[to], MOST), wanted);
    }
    assert_eq!(number(&channels(16), &channels(1), &[15], MOST), 0);
    assert_eq!(number(&channels(16), &channels(1), &[16], MOST), 17);
}

#[test]
fn a_channel_named_twice() {
    assert_eq!(number(&channels(3), &channels(3), &[2, 0, 1], MOST), 0);
    for map in [[0, 0, NEW], [0, NEW, 0], [NEW, 2, 2], [1, 1, 1]] {
        assert_eq!(number(&channels(3), &channels(3), &map, MOST), 17);
    }
    assert_eq!(number(&channels(3), &channels(3), &[NEW, NEW, 0], MOST), 0);
}

#[test]
fn channels_of_different_kinds() {
    assert_eq!(number(P, P, &[0, NEW], MOST), 0);
    assert_eq!(number(P, P, &[NEW, 0], MOST), 17);
    assert_eq!(number(P, P, &[1, NEW], MOST), 17);
    assert_eq!(number(P, P, &[1, 0], MOST), 17);
}

#[test]
fn sixteen_channels_and_no_more() {
    assert_eq!(merged(&channels(9), &channels(7), &[NEW; 7]), channels(16));
    assert_eq!(number(&channels(9), &channels(8), &[NEW; 8], MOST), 18);
    assert_eq!(number(&channels(9), &channels(8), &[NEW, NEW, NEW, 8, NEW, NEW, NEW, NEW], MOST), 0);
    assert_eq!(number(&channels(16), &channels(16), &[NEW; 16], MOST), 18);
    let same: Vec<u8> = (0..16).collect();
    assert_eq!(merged(&channels(16), &channels(16), &same), channels(16));
}

#[test]
fn thirty_two_chords_and_no_more() {
    assert_eq!(merged(&chords(20, 3), &chords(12, 3), &[0]), chords(32, 3));
    assert_eq!(number(&chords(20, 1), &chords(13, 1), &[0], MOST), 18);
    assert_eq!(number(&chords(32, 1), &channels(1), &[0], MOST), 0);
    assert_eq!(number(&channels(1), &chords(32, 1), &[0], MOST), 0);
    assert_eq!(number(&chords(32, 8), &chords(32, 8), &[NEW], MOST), 18);
}

/// A chord has eight members at most, so 257 members are of 33 chords at least.
#[test]
fn members_are_never_too_many_alone() {
    for added in 0..32 {
        assert_eq!(merged(&chords(32 - added, 8), &chords(added, 8), &[0]), chords(32, 8));
        assert_eq!(number(&chords(32 - added, 8), &chords(added + 1, 1), &[0], MOST), 18);
    }
}

#[test]
fn buffers_of_every_length() {
    let (second, map) = (table_bytes(&[1], &[(vec![0, 0, 0], Property)]), [NEW]);
    let len = merged(P, &second, &map).len();
    assert_eq!(len, 12 + 3 + 2 * 4 + 5);
    for room in 0..=MOST {
        assert_eq!(number(P, &second, &map, room), if room < len { 31 } else { 0 });
    }
}

#[test]
fn the_longest_table() {
    let (first, second) = (table_bytes(&[0; 16], &vec![(vec![15; 8], Property); 31]), chords(1, 8));
    assert_eq!(merged(&first, &second, &[15]).len(), MOST);
    assert_eq!(number(&first, &second, &[15], MOST - 1), 31);
    assert_eq!(number(&first, &second, &[NEW], MOST), 18);
}
