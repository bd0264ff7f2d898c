//! Finding messages by words: of sixty-four messages a bit each, set where the message fits.

use crate::board::{CLAIMED, Columns, MESSAGES, PENDING};
use crate::table::Equality;

/// What a member asks of a message: its channel, and that it equals the one in hand as its chord wants.
#[derive(Clone, Copy)]
pub struct Wanted {
    pub channel: u8,
    pub equality: Equality,
    pub property: u32,
    pub unit: u16,
}

/// No key: day and number of none.
const NONE: u64 = u64::MAX;

impl Columns {
    /// The pending message that fits, is not in `chosen` and has the least day, the lowest-numbered of those.
    pub fn oldest_pending(&self, count: u16, wanted: Wanted, chosen: &[u16]) -> Option<u16> {
        let mut best = NONE;
        for block in 0..blocks(count) {
            let may_be_older = best == NONE || any_before(part(&self.days, block), (best >> 16) as u32);
            let word = if may_be_older { self.word(block, count, wanted, PENDING) } else { 0 };
            if word != 0 {
                best = self.oldest_of(block, word & !word_of(chosen, block), best);
                if best >> 16 == 0 {
                    break;
                }
            }
        }
        (best != NONE).then_some(best as u16)
    }

    pub fn any_claimed(&self, count: u16, wanted: Wanted) -> bool {
        (0..blocks(count)).any(|block| self.word(block, count, wanted, CLAIMED) != 0)
    }

    /// The least key, day and number as one number, of the best so far and of the word's messages.
    #[inline(always)]
    fn oldest_of(&self, block: usize, mut word: u64, mut best: u64) -> u64 {
        while word != 0 {
            let message = 64 * block + word.trailing_zeros() as usize;
            let key = u64::from(self.days[message]) << 16 | message as u64;
            if key < best {
                best = key;
                if best >> 16 == 0 {
                    break;
                }
            }
            word &= word - 1;
        }
        best
    }

    /// Which of the block's messages fit and have that status.
    #[inline(always)]
    fn word(&self, block: usize, count: u16, wanted: Wanted, status: u8) -> u64 {
        let mut fits = [255; 64];
        keep_equal(&mut fits, part(&self.channels, block), wanted.channel);
        keep_equal(&mut fits, part(&self.statuses, block), status);
        if !any(&fits) {
            return 0;
        }
        if wanted.equality != Equality::Any {
            keep_equal(&mut fits, part(&self.properties, block), wanted.property);
        }
        if wanted.equality == Equality::Unit {
            keep_equal(&mut fits, part(&self.units, block), wanted.unit);
        }
        if !any(&fits) {
            return 0;
        }
        let counted = 64.min(usize::from(count) - 64 * block);
        bits(&fits) & u64::MAX >> (64 - counted)
    }
}

fn blocks(count: u16) -> usize {
    usize::from(count).div_ceil(64)
}

fn part<T>(column: &[T; MESSAGES], block: usize) -> &[T; 64] {
    &column.as_chunks().0[block]
}

/// Keeps the bytes of the numbers that are equal to that one, sixteen at a time, as they fill a vector.
#[inline(always)]
fn keep_equal<T: Copy + PartialEq>(fits: &mut [u8; 64], numbers: &[T; 64], number: T) {
    for (fits, &numbers) in fits.as_chunks_mut().0.iter_mut().zip(numbers.as_chunks().0) {
        keep_equal_of_16(fits, numbers, number);
    }
}

/// The numbers are a copy, which the compiler knows to lie apart from the bytes.
#[inline(always)]
fn keep_equal_of_16<T: Copy + PartialEq>(fits: &mut [u8; 16], numbers: [T; 16], number: T) {
    for (fit, other) in fits.iter_mut().zip(numbers) {
        *fit &= if other == number { 255 } else { 0 };
    }
}

#[inline(always)]
fn any(bytes: &[u8; 64]) -> bool {
    bytes.iter().fold(0, |any, &byte| any | byte) != 0
}

/// A bit for each byte, which is 0 or 255: of eight bytes each keeps a bit of its own, and a product's top byte has the
/// sum of them.
#[inline(always)]
fn bits(bytes: &[u8; 64]) -> u64 {
    let mut word = 0;
    for (at, eight) in bytes.as_chunks().0.iter().enumerate() {
        let each_its_own = u64::from_le_bytes(*eight) & 0x8040_2010_0804_0201;
        word |= each_its_own.wrapping_mul(0x0101_0101_0101_0101) >> 56 << (8 * at);
    }
    word
}

/// Those of the messages that are of the block.
#[inline(always)]
fn word_of(messages: &[u16], block: usize) -> u64 {
    let of_block = messages.iter().filter(|&&message| usize::from(message) / 64 == block);
    of_block.fold(0, |word, message| word | 1 << (message % 64))
}

/// Whether one of the days is before that day; without a way out, so that many are compared at a time.
fn any_before(days: &[u32; 64], day: u32) -> bool {
    days.iter().fold(false, |any, &other| any | (other < day))
}
