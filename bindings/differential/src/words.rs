//! What words decide of a look: whether messages fit is told of sixty-four at a time, a block, and of no message past
//! the count.

use crate::looks::{Candidate, Look};
use reference::Equality;

/// Messages of a block.
pub const BLOCK: u16 = 64;

const OF_TAKEN: usize = 15;
const OF_MISSED: usize = 6;

/// What words can decide: of the message that is taken, then where none is.
pub const BY_WORDS: [&str; OF_TAKEN + OF_MISSED] = [
    "one of a later block taken",
    "the first of a later block taken",
    "the last of a block taken",
    "an earlier block of which none fits passed over",
    "an earlier block with the property and the unit apart passed over",
    "a block of which those that fit are chosen passed over",
    "one of an earlier block passed over for an older one",
    "a lower one of the block passed over for an older one",
    "one of a later block that is not whole taken",
    "one of a whole last block taken",
    "an older one past the count passed over",
    "one of up to 24 taken",
    "one of 25 to 64 taken",
    "one of more than 512 taken",
    "an older one of half the property passed over",
    "pending ones of two blocks and none taken",
    "property and unit apart in a block and none taken",
    "one past the count and none taken",
    "a claimed one of a later block marks a retry",
    "a claimed one past the count marks none",
    "one of half the property and none taken",
];

/// Which of `BY_WORDS` it is, with that message taken.
pub fn decided(look: &Look, taken: Option<Candidate>) -> [bool; OF_TAKEN + OF_MISSED] {
    let (of_taken, of_missed) = match taken {
        _ if look.of_hand => ([false; OF_TAKEN], [false; OF_MISSED]),
        Some(taken) => (of_taken(look, taken), [false; OF_MISSED]),
        None => ([false; OF_TAKEN], of_missed(look)),
    };
    std::array::from_fn(|at| if at < OF_TAKEN { of_taken[at] } else { of_missed[at - OF_TAKEN] })
}

fn of_taken(look: &Look, taken: Candidate) -> [bool; OF_TAKEN] {
    let (count, block, at) = (look.count, taken.block(), taken.number % BLOCK);
    let blocks = Blocks::of(look);
    let earlier = (1 << block) - 1;
    let is_last = count.div_ceil(BLOCK) == block + 1;
    let older_past = look.pending_past.iter().any(|it| look.fits(it) && it.is_before(taken));
    [
        block > 0,
        block > 0 && at == 0,
        at == BLOCK - 1,
        blocks.pending & !blocks.fitting & !blocks.chosen & earlier != 0,
        blocks.apart & earlier != 0,
        blocks.chosen & !blocks.fitting != 0,
        blocks.fitting & earlier != 0,
        look.fitting().any(|it| it.block() == block && it.number < taken.number),
        is_last && block > 0 && count % BLOCK != 0,
        is_last && count % BLOCK == 0,
        older_past,
        count <= 24,
        (25..=64).contains(&count),
        count > 512,
        look.pending.iter().any(|it| look.fits_by_half(it) && it.is_before(taken)),
    ]
}

fn of_missed(look: &Look) -> [bool; OF_MISSED] {
    let blocks = Blocks::of(look);
    let of_fitting = |them: &[Candidate]| them.iter().find(|it| look.fits(it)).map(Candidate::block);
    let (claimed, claimed_past) = (of_fitting(&look.claimed), of_fitting(&look.claimed_past));
    [
        blocks.pending.count_ones() > 1,
        blocks.apart != 0,
        of_fitting(&look.pending_past).is_some(),
        claimed.is_some_and(|block| block > 0) && !look.retry,
        claimed.is_none() && claimed_past.is_some() && !look.retry,
        look.pending.iter().any(|it| look.fits_by_half(it)),
    ]
}

/// By a bit for each block, in which there are pending messages of the channel that are not chosen; such that fit; the
/// property and the unit, where both are wanted, but not together; and chosen ones that fit.
pub struct Blocks {
    pending: u16,
    pub fitting: u16,
    apart: u16,
    pub chosen: u16,
}

impl Blocks {
    pub fn of(look: &Look) -> Blocks {
        let pending = || look.pending.iter().copied();
        let fitting = blocks(look.fitting());
        let property = blocks(pending().filter(|it| it.same_property));
        let unit = blocks(pending().filter(|it| it.same_unit));
        let apart = if look.equality == Equality::Unit { property & unit & !fitting } else { 0 };
        let chosen = blocks(look.chosen.iter().copied().filter(|it| look.fits(it)));
        Blocks { pending: blocks(pending()), fitting, apart, chosen }
    }
}

fn blocks(messages: impl Iterator<Item = Candidate>) -> u16 {
    messages.fold(0, |blocks, it| blocks | 1 << it.block())
}

#[cfg(test)]
mod tests {
    use super::*;
    use crate::calls::Call;
    use reference::board::CLAIMED;
    use reference::lists::{DAYS, STATUSES, UNITS};
    use reference::table::table_bytes;
    use reference::{Lists, Phase, SENDER_NUMBERS, Sender, State, Table};

    /// Message 0 is in hand, and another of its channel, property and unit is looked for; all have the channel.
    fn look(count: u16, change: impl Fn(&mut Lists)) -> Look {
        let mut lists = Lists::default();
        let own = Some(0);
        let sender = Sender { state: State::Working, own, phase: Phase::Look(1), ..Sender::default() };
        lists.board[0] = count;
        lists.board[2..][..SENDER_NUMBERS].copy_from_slice(&sender.to_numbers());
        (lists.keys[0], lists.links[UNITS]) = (7, 7);
        change(&mut lists);
        let table = Table::read(&table_bytes(&[0], &[([0, 0], Equality::Unit)])).expect("an accepted table");
        Look::before(&table, &lists, Call::Step { sender: 0 }).expect("a look")
    }

    fn put(lists: &mut Lists, messages: &[(usize, u32)]) {
        for &(message, day) in messages {
            (lists.keys[message], lists.links[UNITS + message], lists.keys[DAYS + message]) = (7, 7, day);
        }
    }

    /// What is decided with those messages, by number and day, alike to the one in hand.
    fn of_those(count: u16, messages: &[(usize, u32)]) -> Vec<&'static str> {
        named(&look(count, |lists| put(lists, messages)))
    }

    fn named(look: &Look) -> Vec<&'static str> {
        let taken = look.fitting().min_by_key(|it| (it.day, it.number));
        BY_WORDS.into_iter().zip(decided(look, taken)).filter(|(_, is)| *is).map(|(what, _)| what).collect()
    }

    fn words(numbers: &[usize]) -> Vec<&'static str> {
        numbers.iter().map(|&number| BY_WORDS[number]).collect()
    }

    #[test]
    fn blocks_of_the_one_taken() {
        assert_eq!(of_those(24, &[(11, 0)]), words(&[11]));
        assert_eq!(of_those(25, &[(11, 0)]), words(&[12]));
        assert_eq!(of_those(64, &[(9, 1), (63, 0)]), words(&[2, 7, 9, 12]));
        assert_eq!(of_those(65, &[(64, 0)]), words(&[0, 1, 5, 8]));
        assert_eq!(of_those(200, &[(63, 1), (130, 0)]), words(&[0, 3, 6]));
        assert_eq!(of_those(513, &[(1, 0), (512, 0)]), words(&[13]));
    }

    #[test]
    fn past_the_count() {
        assert_eq!(of_those(66, &[(2, 1), (66, 0), (127, 2)]), words(&[10]));
        assert_eq!(of_those(66, &[(2, 1), (66, 1), (128, 0)]), words(&[]));
        assert_eq!(of_those(9, &[(9, 0)]), words(&[17]));
        assert_eq!(of_those(9, &[(64, 0)]), words(&[]));
    }

    #[test]
    fn property_and_unit_apart() {
        let apart = |lists: &mut Lists| (lists.keys[1], lists.links[UNITS + 2]) = (7, 7);
        assert_eq!(named(&look(66, apart)), words(&[15, 16]));
        let and_one = |lists: &mut Lists| {
            apart(lists);
            put(lists, &[(64, 0)]);
        };
        assert_eq!(named(&look(66, and_one)), words(&[0, 1, 4, 5, 8]));
    }

    #[test]
    fn half_the_property() {
        let half = |lists: &mut Lists| (lists.keys[1], lists.links[UNITS + 1]) = (65_536 + 7, 7);
        assert_eq!(named(&look(9, half)), words(&[20]));
        let and_one = |lists: &mut Lists| {
            half(lists);
            put(lists, &[(2, 0)]);
        };
        assert_eq!(named(&look(9, and_one)), words(&[11, 14]));
    }

    #[test]
    fn claimed_ones() {
        let claimed = |at: usize| {
            move |lists: &mut Lists| {
                put(lists, &[(at, 0)]);
                lists.bytes[STATUSES + at] = CLAIMED;
            }
        };
        assert_eq!(named(&look(66, claimed(1))), words(&[15]));
        assert_eq!(named(&look(66, claimed(65))), words(&[15, 18]));
        assert_eq!(named(&look(65, claimed(65))), words(&[15, 19]));
    }
}
