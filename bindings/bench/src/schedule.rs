//! Lists of calls, made by plain Rust before anything is timed.

use crate::random::Random;
use reference::{Answer, Board, Call, Rows, Sent, State, Table};

const MESSAGES: u16 = 1024;
const SENDERS: u16 = 32;

/// Calls in rows, and the matches that they make.
#[derive(Default)]
pub struct Schedule {
    pub rows: Rows,
    pub matches: u16,
}

impl Schedule {
    /// Plays an accepted call and notes it.
    fn play(&mut self, table: &Table, board: &mut Board, call: Call) {
        assert!(!matches!(board.core_call(table, call), Answer::Refused(_)));
        self.rows.push(call);
    }
}

/// So many senders at a time, in turn, until the board is full and quiet. At each of their places who may step steps,
/// and where it is idle the sender so many further on adds what `next` says of the place and the number of messages so
/// far; so all senders add equally many.
pub fn in_turn(bytes: &[u8], at_a_time: u16, next: impl Fn(u16, u16) -> (u16, u32)) -> Schedule {
    let table = Table::read(bytes).unwrap();
    let (mut board, mut schedule) = (Board::default(), Schedule::default());
    let mut senders: Vec<u16> = (0..at_a_time).collect();
    let mut resting = 0;
    for place in (0..at_a_time).cycle() {
        if resting == at_a_time {
            break;
        }
        resting += 1;
        let sender = &mut senders[usize::from(place)];
        let at = board.senders[usize::from(*sender)];
        if !at.at_rest() {
            schedule.play(&table, &mut board, Call::Step { sender: *sender });
        } else if at.state == State::Idle && board.messages < MESSAGES {
            *sender = (*sender + at_a_time) % SENDERS;
            let (channel, property) = next(place, board.messages);
            let sent = Sent { channel, property, cents: 5, ..Sent::default() };
            schedule.play(&table, &mut board, Call::Add { sender: *sender, sent });
        } else {
            continue;
        }
        resting = 0;
    }
    schedule.matches = board.matches;
    schedule
}

/// Senders by chance, 32 of them, until the board is full and quiet; few properties, so that they compete. Each message
/// is of one of so many days and units, or of day or unit 0 without any. The seed is one by which each sender adds 16
/// or more.
pub fn by_chance(bytes: &[u8], properties: usize, days: usize, units: usize, seed: u64) -> Schedule {
    let table = Table::read(bytes).unwrap();
    let (mut board, mut schedule) = (Board::default(), Schedule::default());
    let mut random = Random::new(seed);
    while board.messages < MESSAGES || !board.is_quiet() {
        let sender = random.below(32) as u16;
        let at = board.senders[sender as usize];
        if !at.at_rest() {
            schedule.play(&table, &mut board, Call::Step { sender });
        } else if at.state == State::Idle && board.messages < MESSAGES {
            let channel = channel_by_chance(&table, &board, &mut random);
            let (property, cents) = (random.below(properties) as u32, random.below(200_000) as i64 - 100_000);
            let mut one_of = |count: usize| if count == 0 { 0 } else { 1 + random.below(count) };
            let (day, unit) = (one_of(days) as u32, one_of(units) as u16);
            let sent = Sent { channel, property, cents, day, unit };
            schedule.play(&table, &mut board, Call::Add { sender, sent });
        }
    }
    schedule.matches = board.matches;
    schedule
}

/// Any channel, or one that lets its sender go where half of the senders are blocked.
fn channel_by_chance(table: &Table, board: &Board, random: &mut Random) -> u16 {
    let blocked = board.senders.iter().filter(|sender| sender.state == State::Blocked).count();
    loop {
        let channel = random.below(table.channel_count.into()) as u8;
        if blocked < 16 || !table.is_waiting(channel) {
            return channel.into();
        }
    }
}

/// A quiet board of so many messages, sent by all senders in turn as pairs that match.
pub fn pairs(bytes: &[u8], messages: u16) -> Board {
    let table = Table::read(bytes).unwrap();
    let mut board = Board::default();
    for message in 0..messages {
        let sent = Sent { channel: message % 2, cents: 5, ..Sent::default() };
        board.core_call(&table, Call::Add { sender: message % SENDERS, sent });
        while let Some(sender) = board.first_busy() {
            board.core_step(&table, sender);
        }
    }
    assert_eq!((board.messages, board.matches), (messages, messages / 2));
    board
}
