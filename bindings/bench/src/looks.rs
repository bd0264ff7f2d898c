//! Looks by words, proved and in plain Rust, each a replayed step; and one by one, over the same columns.

use crate::replays::{steps_of_each, times};
use crate::report::{Target, heading_of_looks, row_of_looks};
use crate::tables;
use crate::timing::{REPLAY_ROUNDS, Times, least_of, timed};
use reference::Equality::{self, Property, Unit};
use reference::board::CONSUMED;
use reference::look::Wanted;
use reference::{Answer, Board, Columns, Phase, Rows, Sent, State, Table, calls, one_by_one};
use std::hint::black_box;

const SPEED: Target = Target::AtLeast(0.8);

/// What a message after the senders' own is, where it is not a pending one that fits.
type Put = fn(&mut Columns, usize);

const EQUAL: Put = |columns, at| columns.days[at] = 20_454;
const RISING: Put = |columns, at| columns.days[at] = at as u32;
const FALLING: Put = |columns, at| columns.days[at] = 1024 - at as u32;

/// Senders that look for messages of channel 1, property 0 and unit 0, each so often.
pub struct Looks {
    pub name: &'static str,
    pub table: Vec<u8>,
    messages: u16,
    each: usize,
    equality: Equality,
    put: Put,
    /// How many times faster than one by one the proved ones are to be.
    times: Target,
}

impl Looks {
    fn full(name: &'static str, table: Vec<u8>, each: usize, equality: Equality, put: Put) -> Looks {
        Looks { name, table, messages: 1024, each, equality, put, times: Target::None }
    }

    fn missed(name: &'static str, equality: Equality, put: Put) -> Looks {
        Looks::full(name, tables::missing(equality), 32, equality, put)
    }

    fn found(name: &'static str, equality: Equality, put: Put) -> Looks {
        Looks::full(name, tables::finding(equality), 7, equality, put)
    }

    fn all_fit(name: &'static str, equality: Equality, put: Put) -> Looks {
        Looks { times: Target::AtLeast(0.87), ..Looks::found(name, equality, put) }
    }

    /// One in four is of the property, half of these are consumed; they are of 30 days.
    fn mixed(name: &'static str, messages: u16) -> Looks {
        let put: Put = |columns, at| {
            (columns.properties[at], columns.days[at]) = (at as u32 % 4, 1 + at as u32 * 7 % 30);
            (columns.statuses[at], columns.matched[at]) = if at / 4 % 2 == 1 { (CONSUMED, 1) } else { (0, 0) };
        };
        Looks { messages, ..Looks::full(name, tables::mixing(), 32, Property, put) }
    }

    fn faster(self, times: f64) -> Looks {
        Looks { times: Target::AtLeast(times), ..self }
    }

    fn senders(&self) -> u16 {
        32.min(self.messages / 2)
    }

    /// A board of messages that all 32 added in turn, whose senders are about to look for the first member of chord 0.
    pub fn board(&self) -> Board {
        let table = Table::read(&self.table).unwrap();
        let mut board = Board { matches: 1, ..Board::default() };
        for at in 0..self.messages {
            let channel = u16::from(at >= self.senders());
            board.core_add(&table, at % 32, Sent { channel, ..Sent::default() });
            board.senders = Default::default();
            if channel == 1 {
                (self.put)(&mut board.columns, at.into());
            }
        }
        for own in 0..self.senders() {
            let sender = &mut board.senders[usize::from(own)];
            sender.state = State::Working;
            (sender.own, sender.subject, sender.phase) = (Some(own), own, Phase::Look(0));
        }
        board
    }

    pub fn steps(&self) -> Rows {
        steps_of_each(self.senders(), self.each)
    }

    /// The answers of the steps, by looks one by one and nothing else.
    pub fn one_by_one(&self, board: &Board, answers: &mut [u32]) {
        let wanted = Wanted { channel: 1, equality: self.equality, property: 0, unit: 0 };
        answers.chunks_mut(self.each).for_each(|answers| look_one_by_one(board, black_box(wanted), answers));
    }

    /// Nanoseconds of a look one by one.
    fn time_one_by_one(&self, board: &Board) -> f64 {
        let mut answers = vec![0; self.steps().len()];
        let [whole] = least_of(REPLAY_ROUNDS, [&mut || timed(|| self.one_by_one(board, &mut answers))]);
        let mut played = vec![0; answers.len()];
        calls::replay(&self.table, &mut board.clone(), &self.steps(), &mut played).unwrap();
        assert_eq!(played, answers);
        whole / answers.len() as f64
    }
}

/// One sender's looks; one that misses looks for a claimed message too, and the next begins another chord.
fn look_one_by_one(board: &Board, wanted: Wanted, answers: &mut [u32]) {
    let (mut chosen, mut at) = ([0; 8], 0);
    for answer in answers {
        let found = one_by_one::oldest_pending(&board.columns, board.messages, wanted, &chosen[..at]);
        *answer = found.map_or(Answer::Missed, Answer::Looked).number();
        if let Some(message) = found {
            chosen[at] = message;
            at += 1;
        } else {
            black_box(one_by_one::any_claimed(&board.columns, board.messages, wanted));
            at = 0;
        }
    }
}

pub fn all() -> Vec<Looks> {
    let [other_channel, other_property]: [Put; 2] =
        [|columns, at| columns.channels[at] = 0, |columns, at| columns.properties[at] = 1];
    let at_the_end: Put = |columns, at| columns.channels[at] = u8::from(at == 1023);
    let at_1000: Put = |columns, at| {
        (columns.statuses[at], columns.matched[at]) = if at < 1000 { (CONSUMED, 1) } else { (0, 0) };
    };
    let by_chance: Put = |columns, at| columns.days[at] = !(at as u32).wrapping_mul(0x9E37_79B9);
    let mut all = vec![
        Looks::missed("missed, none of the channel (and none claimed)", Property, other_channel).faster(3.0),
        Looks::missed("missed, all of the channel, another property", Property, other_property).faster(3.0),
        Looks::found("found at 1,000 to 1,006", Property, at_1000),
        Looks { each: 1, ..Looks::found("one fits, at the end", Property, at_the_end) },
        Looks::all_fit("all fit, no days", Property, |_, _| ()),
        Looks::all_fit("all fit, equal days", Property, EQUAL),
        Looks::all_fit("all fit, rising days", Property, RISING),
        Looks::all_fit("all fit, falling days", Property, FALLING),
        Looks::all_fit("all fit, days by chance", Property, by_chance),
        Looks::mixed("10 messages, two channels, four properties", 10),
        Looks::mixed("63 messages, two channels, four properties", 63),
    ];
    all.extend(by_unit());
    all
}

fn by_unit() -> [Looks; 6] {
    let [other_unit, other_property]: [Put; 2] =
        [|columns, at| columns.units[at] = 1, |columns, at| columns.properties[at] = 1];
    let never_together: Put =
        |columns, at| if at % 2 == 0 { columns.units[at] = 1 } else { columns.properties[at] = 1 };
    [
        Looks::missed("by unit: missed, all of another unit", Unit, other_unit),
        Looks::missed("by unit: missed, all of another property", Unit, other_property),
        Looks::missed("by unit: property and unit, never together", Unit, never_together),
        Looks::all_fit("by unit: all fit, equal days", Unit, EQUAL),
        Looks::all_fit("by unit: all fit, rising days", Unit, RISING),
        Looks::all_fit("by unit: all fit, falling days", Unit, FALLING),
    ]
}

/// A look's nanoseconds: of a replay, less a replay of none.
pub fn looks() {
    heading_of_looks("ns", "speed");
    for looks in all() {
        let (board, steps) = (looks.board(), looks.steps());
        let (whole, tests) = (times(&looks.table, &board, &steps), times(&looks.table, &board, &Rows::default()));
        let Times { proved, plain } = whole.less(tests).map(|ns| ns / steps.len() as f64);
        let figures = [proved, plain, looks.time_one_by_one(&board)];
        row_of_looks(looks.name, figures, [SPEED, looks.times]);
    }
}
