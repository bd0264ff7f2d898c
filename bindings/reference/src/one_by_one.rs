//! The looks one by one: the plain opinion on those by words, and the baseline of their benchmark.

use crate::board::{CLAIMED, Columns, MESSAGES, PENDING};
use crate::look::Wanted;
use crate::table::Equality;

/// The pending message that fits, is not in `chosen` and has the least day, the lowest-numbered of those.
pub fn oldest_pending(columns: &Columns, count: u16, wanted: Wanted, chosen: &[u16]) -> Option<u16> {
    let mut oldest = u64::MAX;
    for at in 0..MESSAGES.min(count.into()) {
        let key = u64::from(columns.days[at]) << 16 | at as u64;
        let is_free = || chosen.iter().all(|&other| usize::from(other) != at);
        if fits(columns, at, wanted, PENDING) && key < oldest && is_free() {
            oldest = key;
        }
    }
    (oldest != u64::MAX).then_some(oldest as u16)
}

pub fn any_claimed(columns: &Columns, count: u16, wanted: Wanted) -> bool {
    (0..MESSAGES.min(count.into())).any(|at| fits(columns, at, wanted, CLAIMED))
}

fn fits(columns: &Columns, at: usize, wanted: Wanted, status: u8) -> bool {
    columns.channels[at] == wanted.channel
        && columns.statuses[at] == status
        && (wanted.equality == Equality::Any || columns.properties[at] == wanted.property)
        && (wanted.equality != Equality::Unit || columns.units[at] == wanted.unit)
}
