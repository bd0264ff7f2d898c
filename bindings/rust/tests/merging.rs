//! Merged tables: their bytes, the refusals in words, and boards that are answered alike.

use gevnyusto::{Matcher, Refusal, host, merge_tables};

const TABLE_P: [u8; 20] = [2, 0, 1, 0, 2, 0, 12, 0, 14, 0, 18, 0, 0, 1, 0, 0, 2, 1, 0, 1];
/// Channels that leave, wait and leave; a chord of the last two.
const SECOND: [u8; 21] = [3, 0, 1, 0, 2, 0, 12, 0, 15, 0, 19, 0, 0, 1, 0, 0, 0, 2, 1, 1, 2];
/// Channel 0 of the second is the first's, the others are new.
const MAP: [Option<u8>; 3] = [Some(0), None, None];

/// So many leaving channels and chords of so many members.
fn table(channels: u8, chords: u16, members: u16) -> Vec<u8> {
    let (records, ends) = (12 + u16::from(channels), 12 + u16::from(channels) + 4 * chords);
    let header = [channels.into(), chords, chords * members, 12, records, ends];
    let mut table: Vec<u8> = header.iter().flat_map(|number| number.to_le_bytes()).collect();
    table.extend(vec![0; channels.into()]);
    for chord in 0..chords {
        table.extend((chord * members).to_le_bytes());
        table.extend([members as u8, 0]);
    }
    table.extend(vec![0; (chords * members).into()]);
    table
}

#[test]
fn merged() {
    let merged = merge_tables(&TABLE_P, &SECOND, &MAP).unwrap();
    assert_eq!(merged[..12], [4, 0, 2, 0, 4, 0, 12, 0, 16, 0, 24, 0]);
    assert_eq!(merged[12..], [0, 1, 1, 0, 0, 0, 2, 1, 2, 0, 2, 1, 0, 1, 2, 3]);
    assert_eq!(merge_tables(&TABLE_P, &table(1, 0, 0), &[Some(0)]).unwrap(), TABLE_P);
}

#[test]
fn equal_units_are_carried() {
    let last_byte = |byte: u8| {
        let mut table = TABLE_P;
        table[17] = byte;
        table
    };
    for (first, second) in [(0, 2), (2, 1), (2, 2)] {
        let merged = merge_tables(&last_byte(first), &last_byte(second), &[Some(0), Some(1)]).unwrap();
        assert_eq!((merged[17], merged[21]), (first, second));
    }
    assert_eq!(merge_tables(&TABLE_P, &last_byte(3), &[Some(0), Some(1)]), Err(Refusal::ChordRecord));
}

#[test]
fn the_longest() {
    let longest = table(16, 32, 8);
    assert_eq!(longest.len(), host::TABLE_BYTES);
    assert_eq!(merge_tables(&table(15, 31, 8), &table(2, 1, 8), &[Some(0), None]).unwrap(), longest);
}

#[test]
fn refusals() {
    let all_new = [None; 3];
    assert_eq!(merge_tables(&TABLE_P[..11], &SECOND[..20], &MAP), Err(Refusal::TableTooShort));
    assert_eq!(merge_tables(&TABLE_P, &SECOND[..20], &all_new[..1]), Err(Refusal::TableLayout));
    assert_eq!(merge_tables(&table(16, 0, 0), &SECOND, &all_new), Err(Refusal::MergedCounts));
    assert_eq!(merge_tables(&table(1, 32, 1), &SECOND, &MAP), Err(Refusal::MergedCounts));
    let refusal = merge_tables(&table(16, 0, 0), &SECOND, &all_new[1..]).unwrap_err();
    assert_eq!((refusal, refusal.number()), (Refusal::ChannelMap, 17));
    assert!(refusal.to_string().starts_with("the map "));
}

#[test]
fn wrong_maps() {
    let wrong: [&[Option<u8>]; 9] = [
        &[],
        &[Some(0), None],
        &[Some(0), None, None, None],
        &[Some(2), None, None],
        &[Some(254), None, None],
        &[Some(255), None, None],
        &[Some(0), None, Some(0)],
        &[Some(1), None, None],
        &[None, Some(0), None],
    ];
    for map in wrong {
        assert_eq!(merge_tables(&TABLE_P, &SECOND, map), Err(Refusal::ChannelMap), "{map:?}");
    }
}

#[test]
fn buffers() {
    let (map, mut out) = ([0, host::NEW_CHANNEL, host::NEW_CHANNEL], [9; 29]);
    assert_eq!(host::merge_tables(&TABLE_P, &SECOND, &map, &mut out[..27]), 31);
    assert_eq!(out, [9; 29]);
    assert_eq!(host::merge_tables(&TABLE_P, &SECOND, &map, &mut out), 0);
    assert_eq!((&out[..28], out[28]), (&merge_tables(&TABLE_P, &SECOND, &MAP).unwrap()[..], 9));
}

#[test]
fn answered_alike() {
    let mut first = Matcher::open(TABLE_P).unwrap();
    let mut merged = Matcher::open(merge_tables(&TABLE_P, &SECOND, &MAP).unwrap()).unwrap();
    for (sender, channel) in [(0, 1), (1, 0), (2, 0), (3, 1)] {
        assert_eq!(first.add(sender, channel, 7, 5000, 0, 0), merged.add(sender, channel, 7, 5000, 0, 0));
        for sender in [0, 1, 2, 3].repeat(20) {
            assert_eq!(first.step(sender), merged.step(sender));
        }
    }
    assert_eq!((first.counts(), merged.counts()), ((4, 2), (4, 2)));
    assert_eq!((first.match_(1), first.quiet()), (merged.match_(1), Ok(true)));
    assert_eq!(
        (first.add(4, 2, 7, 0, 0, 0), merged.add(4, 2, 7, 0, 0, 0).is_ok()),
        (Err(Refusal::NoSuchChannel), true)
    );
}
