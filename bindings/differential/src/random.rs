//! Random numbers and tables, the same for the same seed.

use reference::Equality;
use reference::table::{HEADER, table_bytes};

pub struct Random(u64);

impl Random {
    pub fn new(seed: u64) -> Random {
        let mut random = Random(seed.wrapping_mul(0x9E37_79B9_7F4A_7C15) ^ 0xD1B5_4A32_D192_ED03);
        random.0 |= 1;
        for _ in 0..8 {
            random.next();
        }
        random
    }

    pub fn next(&mut self) -> u64 {
        self.0 ^= self.0 << 13;
        self.0 ^= self.0 >> 7;
        self.0 ^= self.0 << 17;
        self.0.wrapping_mul(0x2545_F491_4F6C_DD1D)
    }

    /// A number below `limit`, which is not 0.
    pub fn below(&mut self, limit: usize) -> usize {
        ((self.next() >> 32) as usize) % limit
    }

    pub fn chance(&mut self, percent: usize) -> bool {
        self.below(100) < percent
    }

    pub fn pick<T: Copy>(&mut self, from: &[T]) -> T {
        from[self.below(from.len())]
    }
}

/// An accepted table with 1 to 16 channels and 0 to 32 chords.
pub fn random_table(random: &mut Random) -> Vec<u8> {
    let largest = random.chance(3);
    let channels = if largest { 16 } else { random.pick(&[1, 2, 2, 3, 3, 4, 4, 5, 6, 8, 12, 16]) };
    let count = if largest { 32 } else { random.pick(&[0, 1, 1, 2, 2, 3, 4, 5, 6, 8, 12, 20, 32]) };
    let longest = if largest { 8 } else { random.pick(&[2, 3, 3, 4, 4, 8]) };
    let shortest = if largest { 8 } else { 1 + usize::from(random.chance(85)) };
    let waiting = random.pick(&[0, 30, 50, 50, 70, 100]);
    let kinds: Vec<u8> = (0..channels).map(|_| random.chance(waiting).into()).collect();
    let chord = |_| {
        let len = shortest + random.below(longest - shortest + 1);
        let equality = random.pick(&[Equality::Any, Equality::Property, Equality::Unit]);
        let members: Vec<u8> = (0..len).map(|_| random.below(channels) as u8).collect();
        (members, equality)
    };
    table_bytes(&kinds, &(0..count).map(chord).collect::<Vec<_>>())
}

/// The last byte of a chord of an accepted table becomes one of these; none without chords.
pub const LAST_BYTES: [u8; 5] = [0, 1, 2, 3, 255];

pub fn put_last_byte(table: &mut [u8], random: &mut Random) -> Option<u8> {
    let (channels, chords) = (usize::from(table[0]), usize::from(table[2]));
    let byte = random.pick(&LAST_BYTES);
    (chords > 0).then(|| {
        table[HEADER + channels + 4 * random.below(chords) + 3] = byte;
        byte
    })
}

/// A byte of the table changed, or its end.
pub fn damage(table: &mut Vec<u8>, random: &mut Random) {
    let at = random.below(table.len());
    match random.below(6) {
        0 => table.truncate(at),
        1 => table.push(random.next() as u8),
        2 => table[at] = random.next() as u8,
        _ => table[at] = table[at].wrapping_add(random.pick(&[1, 2, 255])),
    }
}
