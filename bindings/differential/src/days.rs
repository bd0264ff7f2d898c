//! The days of a schedule's messages.

use crate::random::Random;

/// How the days of a schedule's messages come.
#[derive(Clone, Copy)]
pub enum Days {
    None,
    Equal,
    Few,
    Many,
    Rising,
    Falling,
    Extreme,
}

pub const SORTS: [Days; 7] =
    [Days::None, Days::Equal, Days::Few, Days::Many, Days::Rising, Days::Falling, Days::Extreme];

impl Days {
    /// A day for the message of that number.
    pub fn next(self, random: &mut Random, number: u16) -> u32 {
        let some = 1 + u32::from(number) / 3;
        match self {
            Days::None => 0,
            Days::Equal => 20_454,
            Days::Few => random.below(4) as u32,
            Days::Many => random.next() as u32,
            Days::Rising => some,
            Days::Falling => u32::MAX - some,
            Days::Extreme => random.pick(&[0, 1, u32::MAX - 1, u32::MAX]),
        }
    }
}
