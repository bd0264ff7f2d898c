//! Looks with a fault put in.

use crate::looks::{Candidate, LOOKED, Look, MISSED};
use crate::words::{BLOCK, Blocks};
use reference::{Equality, Lists};

/// Takes another message than the look took: the first that fits, the newest, the last of the oldest, one past the
/// count, the first of its block, or one that is older than the message in hand in its place.
pub fn look_wrongly(fault: &str, look: &Look, lists: &mut Lists, answer: u32) -> Option<u32> {
    let oldest = |it: &Candidate| (it.day, it.number);
    let past = || look.pending_past.iter().copied().filter(|it| look.fits(it));
    let wrong = match fault {
        _ if answer >> 16 == MISSED => None,
        "hand" if look.of_hand => look.fitting().min_by_key(oldest).filter(|it| it.day < look.hand.day),
        _ if look.of_hand => None,
        "number" => look.fitting().min_by_key(|it| it.number),
        "newest" => look.fitting().min_by_key(|it| (!it.day, it.number)),
        "tie" => look.fitting().min_by_key(|it| (it.day, !it.number)),
        "past-the-count" => look.fitting().chain(past()).min_by_key(oldest),
        "lowest-bit" => look.fitting().find(|it| it.block() == answer as u16 / BLOCK),
        _ => None,
    }?;
    look.put(lists, wrong.number);
    Some(LOOKED << 16 | u32::from(wrong.number))
}

/// Those that fit and are not seen: all after the first block of which none fits, the second of each block, the last of
/// each block, or all of a last block that is whole.
pub fn unseen(fault: &str, look: &Look) -> Vec<usize> {
    let blocks = Blocks::of(look);
    let zero = (blocks.fitting | blocks.chosen).trailing_ones() as u16;
    let second = |block: u16| look.fitting().filter(|it| it.block() == block).nth(1);
    let is_unseen = |it: &Candidate| match fault {
        _ if look.of_hand => false,
        "zero-word" => it.block() > zero,
        "next-bit" => second(it.block()).is_some_and(|second| second.number == it.number),
        "last-bit" => it.number % BLOCK == BLOCK - 1,
        "whole-word" => look.count == (it.block() + 1) * BLOCK,
        _ => false,
    };
    look.fitting().filter(is_unseen).map(|it| it.number.into()).collect()
}

/// A message that marks no retry marks one: a claimed one of another unit, or one past the count.
pub fn mark_wrongly(fault: &str, look: &Look, lists: &mut Lists) {
    let marks = match fault {
        "mark" => look.equality == Equality::Unit && look.claimed.iter().any(Candidate::is_of_another_unit),
        "mark-past" => look.claimed_past.iter().any(|it| look.fits(it)),
        _ => false,
    };
    if marks {
        look.mark(lists);
    }
}
