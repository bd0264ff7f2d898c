//! The backoff table: for how many steps a sender rests after the first `again` of a job, the second, and so on.

pub const ENTRIES: usize = 16;
pub const MOST_RESTS: u8 = 64;

/// The built-in table, for boards that are opened without one.
pub const BUILT_IN: Backoff = Backoff([0, 1, 1, 2, 2, 4, 4, 8, 8, 16, 16, 16, 32, 32, 32, 32]);

#[derive(Clone, Copy, Debug, PartialEq, Eq)]
pub struct Backoff(pub [u8; ENTRIES]);

impl Default for Backoff {
    fn default() -> Backoff {
        BUILT_IN
    }
}

impl Backoff {
    /// The table that a customer gives; none if it does not pass.
    pub fn given(bytes: &[u8]) -> Option<Backoff> {
        bytes.try_into().ok().map(Backoff).filter(Backoff::passes)
    }

    /// No rest is longer than the longest there may be, and none shorter than the one before it.
    pub fn passes(&self) -> bool {
        self.0.is_sorted() && self.0.iter().all(|&rests| rests <= MOST_RESTS)
    }

    /// Rests after the `again` of that number, from 1; past the last entry, as there.
    pub fn rests(&self, again: u8) -> u8 {
        let past = usize::from(again).min(ENTRIES);
        self.0[past - 1]
    }
}
