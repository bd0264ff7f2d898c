//! Random tables merged by random maps, whole and damaged, into buffers of every length.

use crate::calls::Merge;
use crate::grounds::{Met, grounds, merged_counts, table_len};
use crate::pair::{Checked, Pair};
use crate::random::{Random, damage, random_table};
use reference::merge::NEW;
use reference::table::{Parts, table_refusal};

pub fn run(pair: &mut Pair, random: &mut Random, met: &mut Met) -> Checked<()> {
    let mut merge = whole(random);
    let room = room(random, merged_len(&merge)?);
    if random.chance(40) {
        damage_map(&mut merge, random);
    }
    if random.chance(15) {
        damage(&mut merge.first, random);
    }
    if random.chance(15) {
        damage(&mut merge.second, random);
    }
    let before: Vec<u8> = (0..room).map(|_| random.next() as u8).collect();
    compare(pair, &merge, &before, met).map_err(|difference| format!("{merge:?}, room {room}: {difference}"))
}

fn compare(pair: &mut Pair, merge: &Merge, before: &[u8], met: &mut Met) -> Checked<()> {
    let grounds = grounds(merge, before.len());
    let (number, after) = pair.merge(merge, before)?;
    let expected = grounds.first().map_or(0, |ground| ground.number);
    if number != expected {
        return Err(format!("refused {number} and not {expected}"));
    }
    met.refused(&grounds);
    if number == 0 || number == 31 {
        met.fitting(counts(merge)?, before.len());
    }
    if number != 0 {
        return Ok(());
    }
    let len = merged_len(merge)?;
    let refusal = table_refusal(&after[..len]);
    if refusal != 0 {
        return Err(format!("the merged table is refused {refusal}"));
    }
    compare_last_bytes(merge, &after[..len], met)?;
    if after[len..] == before[len..] { Ok(()) } else { Err("bytes past the merged table have changed".to_string()) }
}

/// What the chords want equal is what it was, the first's and then the second's.
fn compare_last_bytes(merge: &Merge, merged: &[u8], met: &mut Met) -> Checked<()> {
    let read = |table| Parts::read(table).map_err(|number| format!("a table is refused {number}"));
    let last_bytes = |parts: Parts| parts.chords.iter().map(|record| record[3]).collect::<Vec<u8>>();
    let [first, second] = [last_bytes(read(&merge.first)?), last_bytes(read(&merge.second)?)];
    met.carrying([&first, &second].map(|bytes| bytes.contains(&2)));
    let merged = last_bytes(read(merged)?);
    if merged == [first, second].concat() { Ok(()) } else { Err(format!("merged last bytes {merged:?}")) }
}

fn counts(merge: &Merge) -> Checked<[usize; 3]> {
    let read = |table| Parts::read(table).map_err(|number| format!("a table is refused {number}"));
    Ok(merged_counts(&read(&merge.first)?, &read(&merge.second)?, &merge.map))
}

/// How long the merged table of two accepted ones is, if there is one.
pub fn merged_len(merge: &Merge) -> Checked<usize> {
    counts(merge).map(table_len)
}

/// Accepted tables, and a map that is right.
pub fn whole(random: &mut Random) -> Merge {
    let (first, second) = (random_table(random), random_table(random));
    let map = random_map(random, &first[12..][..first[0].into()], &second[12..][..second[0].into()]);
    Merge { first, second, map }
}

/// Each channel of the second joins a free one of its kind, or becomes a new one.
fn random_map(random: &mut Random, first: &[u8], second: &[u8]) -> Vec<u8> {
    let joining = random.pick(&[0, 30, 70, 100]);
    let mut free: Vec<u8> = (0..first.len() as u8).collect();
    let mut become_of = |kind: u8| {
        let alike: Vec<usize> = (0..free.len()).filter(|&at| first[usize::from(free[at])] == kind).collect();
        let joins = !alike.is_empty() && random.chance(joining);
        if joins { free.swap_remove(random.pick(&alike)) } else { NEW }
    };
    second.iter().map(|&kind| become_of(kind)).collect()
}

fn damage_map(merge: &mut Merge, random: &mut Random) {
    let (map, channels) = (&mut merge.map, merge.first[0]);
    let at = random.below(map.len());
    match random.below(7) {
        0 => map.truncate(at),
        1 => map.push(random.pick(&[NEW, 0, map[at]])),
        2 => map[at] = random.pick(&[channels, 254]),
        3 => map[at] = channels + random.below(usize::from(NEW - channels)) as u8,
        4 => map[at] = map[random.below(map.len())],
        5 => map[at] = random.below(channels.into()) as u8,
        _ => map[at] = NEW,
    }
}

/// The room for a table of that length, more, or less.
fn room(random: &mut Random, len: usize) -> usize {
    match random.below(8) {
        0 => 0,
        1 => random.below(len),
        2 => len - 1,
        3 => len,
        4 => len + 1 + random.below(8),
        5 => random.below(500),
        _ => 412,
    }
}
