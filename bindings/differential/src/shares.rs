//! Each sender's own messages and the common ones in a schedule: what they decide.

use crate::calls::{Call, refused};
use reference::board::{COMMON, MESSAGES, SENDERS, SHARE};
use reference::{COUNTS, Lists, RESTS};

const ITEM: u32 = 0;
/// What one sender can have added at most.
pub const MOST: u32 = SHARE as u32 + COMMON;

const OF_ADDS: [&str; 13] = [
    "a common one used",
    "the last common one used",
    "an own one used with the common ones used",
    "the 528th of a sender added",
    "the 1,024th message added",
    "26 with messages left",
    "26 on a full board",
    "26 to a sender of 528",
    "no such sender before 26",
    "a sender not idle before 26",
    "no such channel before 26",
    "a closed day before 26",
    "cents out of range before 26",
];
pub const REPLAYED: &str = "a replayed 26";
/// An add to which the law applies.
pub const LAWFUL: &str = "an own one used after a 26";

/// All that shares can decide.
pub fn by_shares() -> Vec<String> {
    let rest = [REPLAYED, LAWFUL];
    let whats = OF_ADDS.iter().chain(&rest).map(|what| what.to_string());
    whats.chain((0..SENDERS).map(refused_to)).collect()
}

pub fn refused_to(sender: usize) -> String {
    format!("26 to sender {sender}")
}

/// How many messages each sender has added; none of lists without such numbers.
pub fn counts(lists: &Lists) -> &[u16] {
    lists.board.get(COUNTS..RESTS).unwrap_or(&[])
}

pub fn common_used(counts: &[u16]) -> u32 {
    counts.iter().map(|count| u32::from(count.saturating_sub(SHARE))).sum()
}

/// Whether the sender has used its own messages, and the common ones are used too.
pub fn has_used_up(lists: &Lists, sender: usize) -> bool {
    counts(lists).get(sender).is_some_and(|&count| count >= SHARE) && common_used(counts(lists)) >= COMMON
}

/// Which of `OF_ADDS` a call on those lists is, with that answer.
pub fn decided(lists: &Lists, call: Call, answer: u32) -> Vec<&'static str> {
    let Call::Add { sender, .. } = call else { return Vec::new() };
    let of_add = of_add(lists, sender.into(), answer);
    OF_ADDS.into_iter().zip(of_add).filter(|(_, is)| *is).map(|(what, _)| what).collect()
}

fn of_add(lists: &Lists, sender: usize, answer: u32) -> [bool; OF_ADDS.len()] {
    let (count, common) = (counts(lists).get(sender).copied().unwrap_or(0), common_used(counts(lists)));
    let (taken, none_left, messages) = (answer >> 16 == ITEM, answer == refused(26), usize::from(lists.board[0]));
    let before_it = |number: u32| has_used_up(lists, sender) && answer == refused(number);
    [
        taken && count >= SHARE,
        taken && count >= SHARE && common == COMMON - 1,
        taken && count < SHARE && common == COMMON,
        taken && u32::from(count) == MOST - 1,
        taken && messages == MESSAGES - 1,
        none_left && messages < MESSAGES,
        none_left && messages == MESSAGES,
        none_left && u32::from(count) == MOST,
        common == COMMON && answer == refused(8),
        before_it(9),
        before_it(10),
        before_it(19),
        before_it(11),
    ]
}

#[cfg(test)]
mod tests {
    use super::*;
    use reference::Sent;

    /// What an add of sender 0 is that was answered so, on a board with these counts.
    fn named(counts: &[u16], answer: u32) -> Vec<&'static str> {
        let mut lists = Lists::default();
        lists.board[0] = counts.iter().sum();
        lists.board[COUNTS..][..counts.len()].copy_from_slice(counts);
        decided(&lists, Call::Add { sender: 0, sent: Sent::default() }, answer)
    }

    fn words(numbers: &[usize]) -> Vec<&'static str> {
        numbers.iter().map(|&number| OF_ADDS[number]).collect()
    }

    #[test]
    fn accepted_ones() {
        assert_eq!(named(&[15], 0), words(&[]));
        assert_eq!(named(&[16], 0), words(&[0]));
        assert_eq!(named(&[527], 0), words(&[0, 1, 3]));
        assert_eq!(named(&[17, 526], 0), words(&[0, 1]));
        assert_eq!(named(&[15, 528], 0), words(&[2]));
        assert_eq!(named(&[[31].as_slice(), &[32; 31]].concat(), 0), words(&[0, 1, 4]));
    }

    #[test]
    fn refused_ones() {
        assert_eq!(named(&[528], refused(26)), words(&[5, 7]));
        assert_eq!(named(&[16, 528], refused(26)), words(&[5]));
        assert_eq!(named(&[32; 32], refused(26)), words(&[6]));
        assert_eq!([8, 9, 10, 19, 11].map(|number| named(&[528], refused(number))[0]), OF_ADDS[8..]);
        assert_eq!([8, 9, 10, 19, 11].map(|number| named(&[527], refused(number)).len()), [0; 5]);
        assert_eq!(named(&[15, 528], refused(11)).len(), 0);
    }
}
