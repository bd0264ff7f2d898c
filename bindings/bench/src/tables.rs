//! Tables of the benchmarks.

use reference::Equality::{self, Any, Property};
pub use reference::table::table_bytes as table;

/// The scope paper's table P: a leaving and a waiting channel, one chord of both.
pub const P: &[u8] = &[2, 0, 1, 0, 2, 0, 12, 0, 14, 0, 18, 0, 0, 1, 0, 0, 2, 1, 0, 1];

/// Two waiting channels, one chord of both with equal property numbers.
pub fn rendezvous() -> Vec<u8> {
    table(&[1, 1], &[(&[0, 1], Property)])
}

/// Three waiting channels, one chord of the three with equal property numbers.
pub fn triples() -> Vec<u8> {
    table(&[1, 1, 1], &[(&[0, 1, 2], Property)])
}

/// A rent day's channels (bank line, receipt, release, owner draw) and a refund, with five chords that compete, four of
/// them of messages that are equal.
pub fn morning(equality: Equality) -> Vec<u8> {
    let equal: [&[u8]; 4] = [&[0, 1, 2, 3], &[0, 1, 2], &[0, 3], &[1, 4]];
    let chords = [&equal.map(|channels| (channels, equality))[..], &[(&[0, 0, 4], Any)]].concat();
    table(&[0, 0, 1, 1, 1], &chords)
}

/// Two leaving channels and 32 chords; a message of the first misses at the first member of each.
pub fn missing(equality: Equality) -> Vec<u8> {
    table(&[0, 0], &[(&[1, 0], equality); 32])
}

/// Two leaving channels; a chord of seven members to be found, then a message of the first.
pub fn finding(equality: Equality) -> Vec<u8> {
    table(&[0, 0], &[(&[1, 1, 1, 1, 1, 1, 1, 0], equality)])
}

/// Two leaving channels and 32 chords; a message of the first looks for seven of the second in each.
pub fn mixing() -> Vec<u8> {
    table(&[0, 0], &[([1, 1, 1, 1, 1, 1, 1, 0], Property); 32])
}
