//! The looks by words against those one by one, over random columns, and at the edges.

use crate::board::{CLAIMED, MESSAGES};
use crate::look::Wanted;
use crate::table::Equality;
use crate::{Columns, one_by_one};

struct Random(u64);

impl Random {
    fn below(&mut self, limit: u64) -> u64 {
        self.0 ^= self.0 << 13;
        self.0 ^= self.0 >> 7;
        self.0 ^= self.0 << 17;
        (self.0.wrapping_mul(0x2545_F491_4F6C_DD1D) >> 32) % limit
    }

    fn pick<T: Copy>(&mut self, from: &[T]) -> T {
        from[self.below(from.len() as u64) as usize]
    }
}

/// Few or many of channel 0 that are pending, few or many properties, days and units.
fn columns(random: &mut Random) -> Columns {
    let mut columns = Columns::default();
    let (channels, statuses) = (random.pick(&[1, 1, 2, 40]), random.pick(&[1, 2, 4]));
    let (properties, days) = (random.pick(&[1, 2, 30]), random.pick(&[1, 2, 5, 1000, 1 << 32]));
    let (least, units) = (random.pick(&[0, 1, u32::MAX - 1]), random.pick(&[1, 2, 30]));
    for at in 0..MESSAGES {
        columns.channels[at] = random.below(channels) as u8;
        columns.statuses[at] = random.below(statuses) as u8;
        columns.properties[at] = random.below(properties) as u32;
        columns.days[at] = (random.below(days) as u32).saturating_add(least);
        columns.units[at] = (random.below(units) as u16).wrapping_neg();
    }
    columns
}

const COUNTS: [u16; 10] = [0, 1, 10, 13, 63, 64, 65, 500, 1023, 1024];
const EQUALITIES: [Equality; 3] = [Equality::Any, Equality::Property, Equality::Unit];

fn wanted(equality: Equality) -> Wanted {
    Wanted { channel: 0, equality, property: 0, unit: 0 }
}

/// Eight looks, each with those found before it chosen.
fn compare(columns: &Columns, count: u16, wanted: Wanted, random: &mut Random) {
    assert_eq!(columns.any_claimed(count, wanted), one_by_one::any_claimed(columns, count, wanted));
    let mut chosen = Vec::new();
    for _ in 0..8 {
        let found = columns.oldest_pending(count, wanted, &chosen);
        assert_eq!(found, one_by_one::oldest_pending(columns, count, wanted, &chosen));
        chosen.push(found.unwrap_or(random.below(1024) as u16));
    }
}

#[test]
fn as_one_by_one() {
    let mut random = Random(1);
    for _ in 0..4_000 {
        let (columns, count) = (columns(&mut random), random.pick(&COUNTS));
        let wanted = Wanted { unit: random.pick(&[0, u16::MAX]), ..wanted(random.pick(&EQUALITIES)) };
        compare(&columns, count, wanted, &mut random);
    }
}

#[test]
fn property_and_unit_of_one_message() {
    let mut columns = Columns::default();
    (0..MESSAGES).for_each(|at| (columns.properties[at], columns.units[at]) = (at as u32 % 2, 1 - at as u16 % 2));
    for at in 0..MESSAGES {
        let (mut one, count) = (columns.clone(), COUNTS[at % COUNTS.len()]);
        (one.properties[at], one.units[at]) = (0, 0);
        for (columns, fitting) in [(&columns, None), (&one, (at < count.into()).then_some(at as u16))] {
            assert_eq!(columns.oldest_pending(count, wanted(Equality::Unit), &[]), fitting);
            assert_eq!(one_by_one::oldest_pending(columns, count, wanted(Equality::Unit), &[]), fitting);
        }
    }
}

#[test]
fn none_past_the_count() {
    for (count, equality) in COUNTS.into_iter().flat_map(|count| EQUALITIES.map(|equality| (count, equality))) {
        let mut columns = Columns::default();
        columns.channels[..count.into()].fill(1);
        assert_eq!(columns.oldest_pending(count, wanted(equality), &[]), None);
        columns.statuses.fill(CLAIMED);
        assert!(!columns.any_claimed(count, wanted(equality)));
        columns.channels[usize::from(count).saturating_sub(1)] = 0;
        assert_eq!(columns.any_claimed(count, wanted(equality)), count > 0);
    }
}
