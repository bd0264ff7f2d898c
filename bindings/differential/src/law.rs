//! Request 1's law, played: a schedule that adds only to channels of the first table which no chord of the second names
//! is answered alike under the first table and the merged one, and leaves the same board.

use crate::backoffs::KINDS;
use crate::calls::{Call, Calls, Merge, Read};
use crate::closes::{Books, CLOSED};
use crate::difference::difference;
use crate::habits::Habits;
use crate::ledger::Ledger;
use crate::merges::{merged_len, whole};
use crate::pair::Checked;
use crate::random::Random;
use crate::strays::lent_anything;
use crate::waits::Waits;
use reference::{Lists, Sent, Table};

const MATCHED: u32 = 6;
/// Where a schedule that leaves the law adds to as well.
const OUTSIDE: [&str; 2] = ["channels that the second's chords name", "new channels"];

#[derive(Default)]
pub struct Tally {
    pub calls: u64,
    schedules: u64,
    matches: u64,
    closes: u64,
    reads: u64,
    /// By where they leave the law: schedules that do, and those of them that are answered otherwise.
    outside: [u64; 2],
    differing: [u64; 2],
}

/// A table, the merged one, and their channels.
struct Tables {
    first: Vec<u8>,
    merged: Vec<u8>,
    /// The law's channels.
    own: Vec<u16>,
    /// Those of the first that the second's chords name, and the new ones.
    outside: [Vec<u16>; 2],
}

/// A board under each of the two tables.
struct Boards<'a> {
    side: &'a mut dyn Calls,
    tables: &'a Tables,
    table: Table,
    /// The backoff table that both were opened with.
    rests: Option<Vec<u8>>,
    first: Lists,
    merged: Lists,
}

/// A schedule inside the law, and one that leaves it, over tables of their own.
pub fn run(side: &mut dyn Calls, random: &mut Random, number: u64, tally: &mut Tally) -> Checked<()> {
    let place = (number % 2) as usize;
    let tables = tables(side, random, place)?;
    let said = |difference: String| format!("{:?} and {:?}: {difference}", tables.first, tables.merged);
    play_inside(&mut Boards::open(side, &tables, random)?, random, tally).map_err(said)?;
    let differs = play_outside(&mut Boards::open(side, &tables, random)?, random, place).map_err(said)?;
    tally.schedules += 1;
    tally.outside[place] += u64::from(differs.is_some());
    tally.differing[place] += u64::from(differs == Some(true));
    Ok(())
}

fn play_inside(boards: &mut Boards, random: &mut Random, tally: &mut Tally) -> Checked<()> {
    let (mut habits, mut books, mut ledger) = (Habits::new(random, 0), Books::default(), Ledger::default());
    let mut waits = Waits::of(boards.rests.as_deref())?;
    let length = random.pick(&[20, 40, 80, 120]);
    for turn in 0..length {
        habits.draining = turn > 2 * length / 3;
        let call = habits.choose(random, &boards.table, &boards.first);
        let call = at_channels(call, &boards.tables.own, random);
        let (one, two) = boards.call(call);
        boards.compare(random, one, two).map_err(|difference| format!("{call:?}: {difference}"))?;
        books.check(&boards.first, call, one)?;
        ledger.check(&boards.first, call, one)?;
        waits.check(&boards.first, call, one)?;
        tally.calls += 1;
        tally.reads += 4;
        tally.matches += u64::from(one >> 16 == MATCHED);
        tally.closes += u64::from(one == CLOSED);
    }
    Ok(())
}

/// Whether an answer differs after an add outside the law; none if there is no such add.
fn play_outside(boards: &mut Boards, random: &mut Random, place: usize) -> Checked<Option<bool>> {
    let (mut habits, mut left) = (Habits::new(random, 0), false);
    for _ in 0..random.pick(&[20, 40, 80]) {
        let call = habits.choose(random, &boards.table, &boards.first);
        let leaves = matches!(call, Call::Add { .. }) && random.chance(30);
        let channels = if leaves { &boards.tables.outside[place] } else { &boards.tables.own };
        let (one, two) = boards.call(at_channels(call, channels, random));
        left |= leaves;
        if one != two {
            return if left { Ok(Some(true)) } else { Err(format!("{call:?}: answers {one} and {two}")) };
        }
    }
    Ok(left.then_some(false))
}

/// The call, an add of it to one of those channels.
fn at_channels(call: Call, channels: &[u16], random: &mut Random) -> Call {
    match call {
        Call::Add { sender, sent } if !channels.contains(&sent.channel) => {
            Call::Add { sender, sent: Sent { channel: random.pick(channels), ..sent } }
        }
        call => call,
    }
}

/// Tables that can be merged, with channels inside the law and outside it.
fn tables(side: &mut dyn Calls, random: &mut Random, place: usize) -> Checked<Tables> {
    loop {
        let merge = whole(random);
        let mut merged = vec![0; merged_len(&merge)?];
        match side.merge(&merge, &mut merged) {
            0 => {}
            18 => continue,
            number => return Err(format!("{merge:?}: refused {number}")),
        }
        let tables = Tables::new(merge, merged)?;
        if !tables.own.is_empty() && !tables.outside[place].is_empty() {
            return Ok(tables);
        }
    }
}

impl Tables {
    fn new(merge: Merge, merged: Vec<u8>) -> Checked<Tables> {
        let second = Table::read(&merge.second).map_err(|number| format!("refused {number}"))?;
        let members = (0..second.chord_count).flat_map(|chord| second.chord(chord).members());
        let named: Vec<u8> = members.map(|&channel| merge.map[usize::from(channel)]).collect();
        let (named, own) = (0..u16::from(merge.first[0])).partition(|&channel| named.contains(&(channel as u8)));
        let new = (merge.first[0].into()..merged[0].into()).collect();
        Ok(Tables { first: merge.first, merged, own, outside: [named, new] })
    }
}

impl Boards<'_> {
    fn open<'a>(side: &'a mut dyn Calls, tables: &'a Tables, random: &mut Random) -> Checked<Boards<'a>> {
        let lent = lent_anything(random);
        let table = Table::read(&tables.first).map_err(|number| format!("refused {number}"))?;
        let rests = random.pick(&KINDS).0.bytes(random);
        let mut boards = Boards { side, tables, table, rests, first: lent.clone(), merged: lent };
        let one = boards.side.open(&tables.first, boards.rests.as_deref(), &mut boards.first.board);
        let two = boards.side.open(&tables.merged, boards.rests.as_deref(), &mut boards.merged.board);
        if (one, two) == (0, 0) { Ok(boards) } else { Err(format!("open answers {one} and {two}")) }
    }

    fn call(&mut self, call: Call) -> (u32, u32) {
        let one = self.side.call(&self.tables.first, &mut self.first, call);
        (one, self.side.call(&self.tables.merged, &mut self.merged, call))
    }

    /// The answers, every number of the lists, and the reads.
    fn compare(&mut self, random: &mut Random, one: u32, two: u32) -> Checked<()> {
        if one != two {
            return Err(format!("answers {one} and {two}"));
        }
        if self.first != self.merged {
            return Err(difference(&self.first, &self.merged, None).unwrap_or_default());
        }
        let message = random.below(usize::from(self.first.board[0]) + 2) as u16;
        let number = random.below(usize::from(self.first.board[1]) + 2) as u16;
        let sender = random.below(34) as u16;
        for read in [Read::Message(message), Read::Match(number), Read::Reply(sender), Read::Quiet] {
            self.compare_read(read)?;
        }
        Ok(())
    }

    fn compare_read(&mut self, read: Read) -> Checked<()> {
        let (mut one, mut two) = ([-1; 12], [-1; 12]);
        let first = self.side.read(&self.tables.first, &mut self.first, read, &mut one);
        let second = self.side.read(&self.tables.merged, &mut self.merged, read, &mut two);
        let same = (first, one) == (second, two);
        if same { Ok(()) } else { Err(format!("{read:?}: {first} {one:?} and {second} {two:?}")) }
    }
}

impl Tally {
    pub fn print(&self) {
        let Tally { schedules, calls, matches, closes, reads, .. } = self;
        println!(
            "law: {schedules} schedules alike, {calls} calls, {matches} matches, {closes} days closed, {reads} reads"
        );
        for ((place, outside), differing) in OUTSIDE.iter().zip(self.outside).zip(self.differing) {
            println!("outside the law, adds to {place}: {differing} of {outside} schedules differ");
        }
    }

    /// What would make the law's test an empty one.
    pub fn missing(&self) -> Option<String> {
        let place = OUTSIDE.iter().zip(self.differing).find(|(_, differing)| *differing == 0);
        let place = place.map(|(place, _)| format!("a difference by adds to {place}"));
        let inside = [(self.matches, "a match inside the law"), (self.closes, "a close inside the law")];
        let inside = inside.into_iter().find(|(times, _)| *times == 0);
        place.or(inside.map(|(_, what)| what.to_string()))
    }
}
