//! Two tables merged, from the prose of request 1. A map has a byte for each channel of the second table.

use crate::answer::Refusal;
use crate::table::{HEADER, Header, Parts};

/// The map's byte for a channel that becomes a new one; any other is the channel of the first that it becomes.
pub const NEW: u8 = 255;

/// Writes the merged table from the start of `out` and answers 0, or refuses and leaves `out` as it is.
pub fn merge(first: &[u8], second: &[u8], map: &[u8], out: &mut [u8]) -> Refusal {
    checked_merge(first, second, map, out).err().unwrap_or(0)
}

fn checked_merge(first: &[u8], second: &[u8], map: &[u8], out: &mut [u8]) -> Result<(), Refusal> {
    let (first, second) = (Parts::read(first)?, Parts::read(second)?);
    let becomes = channels_after(first.channels, second.channels, map).ok_or(17)?;
    let header = Header {
        channels: first.channels.len() + map.iter().filter(|&&to| to == NEW).count(),
        chords: first.chords.len() + second.chords.len(),
        members: first.members.len() + second.members.len(),
    };
    if !header.in_range() {
        return Err(18);
    }
    let table = out.get_mut(..header.table_len()).ok_or(31)?;
    let (head, rest) = table.split_at_mut(HEADER);
    let (channels, rest) = rest.split_at_mut(header.channels);
    let (chords, members) = rest.split_at_mut(4 * header.chords);
    head.copy_from_slice(&header.to_bytes());
    put_channels(channels, first.channels, second.channels, map);
    put_chords(chords, &first, &second);
    put_members(members, &first, &second, &becomes);
    Ok(())
}

/// What each channel of the second becomes, new ones numbered on from the first's; none if the map is wrong.
fn channels_after(first: &[u8], second: &[u8], map: &[u8]) -> Option<[u8; 16]> {
    if map.len() != second.len() {
        return None;
    }
    let (mut becomes, mut taken, mut next) = ([0; 16], [false; 16], first.len() as u8);
    for (at, (&to, kind)) in map.iter().zip(second).enumerate() {
        becomes[at] = to;
        if to == NEW {
            becomes[at] = next;
            next += 1;
        } else if first.get(usize::from(to)) != Some(kind) || taken[usize::from(to)] {
            return None;
        } else {
            taken[usize::from(to)] = true;
        }
    }
    Some(becomes)
}

fn put_channels(channels: &mut [u8], first: &[u8], second: &[u8], map: &[u8]) {
    let (kept, new) = channels.split_at_mut(first.len());
    kept.copy_from_slice(first);
    let kinds = second.iter().zip(map).filter(|&(_, &to)| to == NEW);
    for (channel, (&kind, _)) in new.iter_mut().zip(kinds) {
        *channel = kind;
    }
}

/// The second's chords begin past the first's members.
fn put_chords(chords: &mut [u8], first: &Parts, second: &Parts) {
    let (kept, added) = chords.split_at_mut(4 * first.chords.len());
    kept.copy_from_slice(first.chords.as_flattened());
    for (chord, &[low, high, len, equality]) in added.chunks_exact_mut(4).zip(second.chords) {
        let [low, high] = (u16::from_le_bytes([low, high]) + first.members.len() as u16).to_le_bytes();
        chord.copy_from_slice(&[low, high, len, equality]);
    }
}

fn put_members(members: &mut [u8], first: &Parts, second: &Parts, becomes: &[u8; 16]) {
    let (kept, added) = members.split_at_mut(first.members.len());
    kept.copy_from_slice(first.members);
    for (member, &channel) in added.iter_mut().zip(second.members) {
        *member = becomes[usize::from(channel)];
    }
}
