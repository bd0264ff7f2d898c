//! Adds by shares, and boards by their counts, with a fault put in.

use crate::calls::{Call, is_refusal, refused};
use crate::closes::is_wild;
use crate::shares::{MOST, common_used, counts, has_used_up};
use reference::board::{COMMON, MESSAGES, SENDERS, SHARE};
use reference::{COUNTS, Lists, NUMBERS, Sent};

/// The faults that are here.
pub const FAULTS: [&str; 11] = [
    "share-15",
    "share-17",
    "common-511",
    "common-513",
    "eaten-shares",
    "used-before-day",
    "used-before-cents",
    "refused-counts",
    "no-sum",
    "no-parts",
    "sum-modulo",
];

/// Whether the fault finds nothing left for a sender: with another share, with other common messages, or with none left
/// when the board is full.
fn finds_none_left(fault: &str, lists: &Lists, sender: usize) -> Option<bool> {
    let (share, common) = match fault {
        "share-15" => (15, COMMON),
        "share-17" => (17, COMMON),
        "common-511" => (SHARE, COMMON - 1),
        "common-513" => (SHARE, COMMON + 1),
        "eaten-shares" => return Some(usize::from(*lists.board.first()?) >= MESSAGES),
        _ => return None,
    };
    let past = |&count: &u16| u32::from(count.saturating_sub(share));
    let used = counts(lists).iter().map(past).sum::<u32>();
    Some(*counts(lists).get(sender)? >= share && used >= common)
}

/// Whether the fault finds such counts a sound board's: by parts alone, by the sum alone, or by sums that wrap.
fn finds_sound(fault: &str, lists: &Lists) -> bool {
    if lists.board.len() != NUMBERS {
        return false;
    }
    let (messages, counts) = (u32::from(lists.board[0]), counts(lists));
    let sum: u32 = counts.iter().map(|&count| u32::from(count)).sum();
    match fault {
        "no-sum" => common_used(counts) <= COMMON,
        "no-parts" => sum == messages,
        "sum-modulo" => sum % 65_536 == messages && common_used(counts) % 65_536 <= COMMON,
        _ => false,
    }
}

/// Whether a call that was refused so is let through.
pub fn is_let_through(fault: &str, before: &Lists, call: Call, answer: u32) -> bool {
    let of_sender = call.sender().filter(|_| answer == refused(26));
    let has_left = |sender: usize| finds_none_left(fault, before, sender) == Some(false);
    let is_full = before.board.first() >= Some(&(MESSAGES as u16));
    !is_full && of_sender.is_some_and(has_left) || answer == refused(30) && finds_sound(fault, before)
}

/// Counts of a sound board, by which that sender has the fewest.
pub fn sound_counts(messages: u16, sender: usize) -> [u16; SENDERS] {
    let (mut counts, mut left) = ([0; SENDERS], messages);
    for turn in 1..=SENDERS {
        let most = if turn == 1 { MOST as u16 } else { SHARE };
        counts[(sender + turn) % SENDERS] = left.min(most);
        left -= left.min(most);
    }
    counts
}

/// An add that was answered so is refused by another number, or refused after all, or counts though it is refused.
pub fn refuse_wrongly(fault: &str, before: Lists, lists: &mut Lists, sender: u16, sent: Sent, answer: u32) -> u32 {
    let i = usize::from(sender);
    let used_up = has_used_up(&before, i);
    match fault {
        "used-before-day" if answer == refused(19) && used_up => refused(26),
        "used-before-cents" if answer == refused(11) && used_up && is_wild(sent.cents) => refused(26),
        "refused-counts" if is_refusal(answer) && answer != refused(30) && i < SENDERS => {
            lists.board.iter_mut().skip(COUNTS + i).take(1).for_each(|count| *count = count.wrapping_add(1));
            answer
        }
        _ if !is_refusal(answer) && finds_none_left(fault, &before, i) == Some(true) => {
            *lists = before;
            refused(26)
        }
        _ => answer,
    }
}

#[cfg(test)]
mod tests {
    use super::*;

    #[test]
    fn counts_by_which_a_sender_has_any_left() {
        for messages in [0, 1, 528, 529, 544, 1008, 1009, 1023, 1024] {
            for sender in [0, 5, 31] {
                let counts = sound_counts(messages, sender);
                assert_eq!((counts.iter().sum::<u16>(), common_used(&counts) <= COMMON), (messages, true));
                assert_eq!(counts[sender], messages.saturating_sub(1008));
            }
        }
    }
}
