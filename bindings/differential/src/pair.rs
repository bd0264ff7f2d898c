//! Two implementations side by side: every call goes to both, and what each says and leaves is compared.

use crate::calls::{Call, Calls, Merge, Read, is_refusal, refused};
use crate::closes::{self, CLOSED};
use crate::difference::difference;
use crate::seen::Seen;
use crate::shares;
use crate::stays::altered;
use reference::calls::CLOSE;
use reference::{Lists, RESTS, Rows, Table};

pub type Checked<T> = Result<T, String>;

/// What was compared so far.
pub struct Tally {
    pub calls: u64,
    pub words: [u64; 19],
    pub refusals: [u64; 256],
    /// Calls on sound boards that no schedule made, on damaged boards and tables; reads, replays and merges.
    pub unreached: u64,
    pub damaged: u64,
    pub reads: u64,
    pub replays: u64,
    pub merges: u64,
    pub seen: Seen,
}

impl Default for Tally {
    fn default() -> Tally {
        let (words, refusals) = ([0; 19], [0; 256]);
        let seen = Seen::default();
        Tally { calls: 0, words, refusals, unreached: 0, damaged: 0, reads: 0, replays: 0, merges: 0, seen }
    }
}

pub struct Pair {
    left: Box<dyn Calls>,
    right: Box<dyn Calls>,
    pub table: Vec<u8>,
    pub ours: Lists,
    pub theirs: Lists,
    ours_before: Lists,
    theirs_before: Lists,
    /// The numbers of their first opened board, up to the backoff table.
    opened: Vec<u16>,
    pub tally: Tally,
}

impl Pair {
    pub fn new(left: Box<dyn Calls>, right: Box<dyn Calls>) -> Pair {
        let lists = Lists::default();
        Pair {
            left,
            right,
            table: Vec::new(),
            ours: lists.clone(),
            theirs: lists.clone(),
            ours_before: lists.clone(),
            theirs_before: lists,
            opened: Vec::new(),
            tally: Tally::default(),
        }
    }

    pub fn parsed(&self) -> Option<Table> {
        Table::read(&self.table).ok()
    }

    /// Opens a board for that table in the lists of both, with that backoff table if one is given.
    pub fn open(&mut self, table: Vec<u8>, rests: Option<&[u8]>) -> Checked<u8> {
        self.table = table;
        let (one, two) = (self.left.table_refusal(&self.table), self.right.table_refusal(&self.table));
        same("refusal of the table", one, two)?;
        self.keep_before();
        let one = self.left.open(&self.table, rests, &mut self.ours.board);
        let two = self.right.open(&self.table, rests, &mut self.theirs.board);
        same("refusal of open", one, two)?;
        if one == 0 {
            self.compare_opened()?
        } else {
            self.unchanged("refused opens")?
        }
        Ok(one)
    }

    /// What the papers leave open in an opened board is in every one the same, whatever stood there before.
    fn compare_opened(&mut self) -> Checked<()> {
        self.compare_lists()?;
        let numbers = &self.theirs.board[..RESTS];
        if self.opened.is_empty() {
            self.opened = numbers.to_vec();
        }
        let other = (0..RESTS).find(|&at| self.opened[at] != numbers[at]);
        other.map_or(Ok(()), |at| Err(format!("theirs: board number {at} is another than in the first opened board")))
    }

    /// The lists of both as given.
    pub fn set(&mut self, lists: &Lists) {
        self.ours.copy(lists);
        self.theirs.copy(lists);
    }

    pub fn call(&mut self, call: Call) -> Checked<u32> {
        self.checked_call(call).map_err(|difference| format!("{call:?}: {difference}"))
    }

    fn checked_call(&mut self, call: Call) -> Checked<u32> {
        self.keep_before();
        let one = self.left.call(&self.table, &mut self.ours, call);
        let two = self.right.call(&self.table, &mut self.theirs, call);
        if one != two {
            return Err(format!("answer: {} and {}", shown(one), shown(two)));
        }
        if is_refusal(one) {
            self.unchanged("refused calls")?
        } else {
            self.compare_lists()?;
            let change = altered(&self.ours_before, &self.ours, call);
            change.map_or(Ok(()), |change| Err(format!("ours, which it may not alter: {change}")))?
        }
        self.tally.calls += 1;
        Ok(one)
    }

    fn keep_before(&mut self) {
        self.ours_before.copy(&self.ours);
        self.theirs_before.copy(&self.theirs);
    }

    /// Our lists as they were before the last call.
    pub fn before(&self) -> &Lists {
        &self.ours_before
    }

    /// Counts an answer of a schedule.
    pub fn count(&mut self, answer: u32) {
        self.tally.words[(answer >> 16) as usize] += 1;
        if is_refusal(answer) {
            self.tally.refusals[answer as u8 as usize] += 1;
        }
    }

    /// Every list is as it was before those calls.
    fn unchanged(&mut self, calls: &str) -> Checked<()> {
        self.tally.seen.note(calls);
        let ours = difference(&self.ours_before, &self.ours, None).map(|change| format!("ours: {change}"));
        let theirs = || difference(&self.theirs_before, &self.theirs, None).map(|change| format!("theirs: {change}"));
        ours.or_else(theirs).map_or(Ok(()), |change| Err(format!("{calls} change {change}")))
    }

    fn compare_lists(&self) -> Checked<()> {
        difference(&self.ours, &self.theirs, self.parsed().as_ref()).map_or(Ok(()), Err)
    }

    /// Reads with room for `room` numbers; returns what was read.
    pub fn read(&mut self, read: Read, room: usize) -> Checked<(u8, Vec<i64>)> {
        let (mut one, mut two) = (vec![-1; room], vec![-1; room]);
        self.keep_before();
        let first = self.left.read(&self.table, &mut self.ours, read, &mut one);
        let second = self.right.read(&self.table, &mut self.theirs, read, &mut two);
        self.tally.reads += 1;
        let what = format!("{read:?} with room for {room}");
        same(&what, first, second)?;
        self.unchanged("reads")?;
        if one != two {
            return Err(format!("{what}: {one:?} and {two:?}"));
        }
        if let Read::Match(_) = read
            && first == 0
        {
            let len = one[1].clamp(0, 8) as usize;
            if one[3 + len..].iter().take(8 - len).any(|&x| x != 0) {
                return Err(format!("{what}: not 0 past the chord's size: {one:?}"));
            }
            one.truncate(3 + len);
        }
        Ok((first, one))
    }

    /// Plays the calls on the lists as they are, into answers with that much room.
    pub fn replay(&mut self, rows: &Rows, room: usize) -> Checked<(u8, Vec<u32>)> {
        let (mut one, mut two) = (vec![u32::MAX; room], vec![u32::MAX; room]);
        self.keep_before();
        let first = self.left.replay(&self.table, &mut self.ours, rows, &mut one);
        let second = self.right.replay(&self.table, &mut self.theirs, rows, &mut two);
        self.tally.replays += 1;
        same("refusal of replay", first, second)?;
        if let Some(at) = (0..room).find(|&at| one[at] != two[at]) {
            return Err(format!("replayed answer {at}: {} and {}", shown(one[at]), shown(two[at])));
        }
        if first == 0 {
            self.count_replayed(rows, &one);
            self.compare_lists()?
        } else {
            self.unchanged("refused replays")?
        }
        Ok((first, one))
    }

    fn count_replayed(&mut self, rows: &Rows, answers: &[u32]) {
        for (&kind, &answer) in rows.calls.iter().step_by(4).zip(answers) {
            match kind {
                CLOSE => self.tally.seen.note(closes::REPLAYED[usize::from(answer != CLOSED)]),
                _ if answer == refused(26) => self.tally.seen.note(shares::REPLAYED),
                _ => {}
            }
        }
    }

    /// Merges into buffers with those bytes in them; returns the bytes that are there then.
    pub fn merge(&mut self, merge: &Merge, before: &[u8]) -> Checked<(u8, Vec<u8>)> {
        let (mut one, mut two) = (before.to_vec(), before.to_vec());
        let first = self.left.merge(merge, &mut one);
        let second = self.right.merge(merge, &mut two);
        same("refusal of the merge", first, second)?;
        if one != two {
            return Err(format!("merged: {one:?} and {two:?}"));
        }
        if first != 0 && one != before {
            return Err(format!("a merge refused {first} changed its buffer"));
        }
        self.tally.merges += 1;
        Ok((first, one))
    }
}

fn same<T: PartialEq + std::fmt::Display>(what: &str, one: T, two: T) -> Checked<()> {
    if one == two { Ok(()) } else { Err(format!("{what}: {one} and {two}")) }
}

fn shown(answer: u32) -> String {
    let word = reference::answer::WORDS.get((answer >> 16) as usize).unwrap_or(&"no word");
    format!("{word} {}", answer as u16)
}
