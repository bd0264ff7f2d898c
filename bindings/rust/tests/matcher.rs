//! The scope paper's printed run, by single calls and by a replay, and refusals in words.

use gevnyusto::{Answer, Call, Matcher, Refusal, Status};

const TABLE_P: [u8; 20] = [2, 0, 1, 0, 2, 0, 12, 0, 14, 0, 18, 0, 0, 1, 0, 0, 2, 1, 0, 1];

fn run_of_p() -> Vec<Call> {
    let mut calls = vec![Call::Add { sender: 0, channel: 1, property: 7, cents: 0, day: 0, unit: 0 }];
    calls.extend([Call::Step { sender: 0 }; 3]);
    calls.push(Call::Add { sender: 1, channel: 0, property: 7, cents: 5000, day: u32::MAX, unit: u16::MAX });
    calls.extend([Call::Step { sender: 1 }; 7]);
    calls.extend([Call::Step { sender: 0 }; 8]);
    calls
}

fn printed() -> Vec<Result<Answer, Refusal>> {
    use Answer::*;
    let mut said = vec![Ok(Item(0)), Ok(Missed), Ok(Ended), Err(Refusal::NothingToStep)];
    said.extend([Item(1), Looked(1), Looked(0), Claimed(1), Claimed(0), Woke(0), Freed(1), Signalled(0)].map(Ok));
    said.extend([Resumed, Looked(1), Looked(0), Claimed(1), Matched(0), Consumed(1), Consumed(0)].map(Ok));
    said.push(Err(Refusal::NothingToStep));
    said
}

fn check_end(matcher: &Matcher) {
    assert_eq!(matcher.counts(), (2, 1));
    let read = matcher.match_(0).unwrap();
    assert_eq!((read.chord, read.cents, read.messages), (0, 5000, vec![1, 0]));
    let message = matcher.message(1).unwrap();
    assert_eq!((message.channel, message.property, message.cents), (0, 7, 5000));
    assert_eq!((message.day, message.unit), (u32::MAX, u16::MAX));
    assert_eq!((message.status, message.matched), (Status::Consumed, Some(0)));
    assert_eq!((matcher.reply(0), matcher.reply(1), matcher.quiet()), (Ok(Some(0)), Ok(None), Ok(true)));
    assert_eq!(matcher.message(2), Err(Refusal::NoSuchMessage));
    assert_eq!(matcher.match_(1), Err(Refusal::NoSuchMatch));
    assert_eq!(matcher.reply(32), Err(Refusal::NoSuchSender));
}

#[test]
fn single_calls() {
    let mut matcher = Matcher::open(TABLE_P).unwrap();
    let call = |call| match call {
        Call::Add { sender, channel, property, cents, day, unit } => {
            matcher.add(sender, channel, property, cents, day, unit)
        }
        Call::Step { sender } => matcher.step(sender),
        Call::Close { day } => matcher.close(day),
    };
    let said: Vec<_> = run_of_p().into_iter().map(call).collect();
    assert_eq!(said, printed());
    check_end(&matcher);
}

#[test]
fn replayed() {
    let mut matcher = Matcher::open(TABLE_P).unwrap();
    assert_eq!(matcher.replay(&run_of_p()), Ok(printed()));
    check_end(&matcher);
}

#[test]
fn the_oldest_first() {
    let mut matcher = Matcher::open(TABLE_P).unwrap();
    for day in [31, 28, 28, 59] {
        matcher.add(1, 0, 7, day.into(), day, 0).unwrap();
        while matcher.step(1).is_ok() {}
    }
    for oldest in [1, 2, 0, 3] {
        matcher.add(0, 1, 7, 0, 0, 0).unwrap();
        while matcher.step(0).is_ok() {}
        let number = matcher.reply(0).unwrap().unwrap();
        assert_eq!(matcher.match_(number).unwrap().messages[0], oldest);
    }
    assert_eq!(matcher.message(3).unwrap().day, 59);
}

/// Table P with another last byte of its chord; a payment of each unit, then a tenant of unit 2 who waits.
fn paid(last_byte: u8, units: &[u16]) -> Option<u16> {
    let mut table = TABLE_P;
    table[17] = last_byte;
    let mut matcher = Matcher::open(table).unwrap();
    for &unit in units {
        matcher.add(1, 0, 7, 5000, 0, unit).unwrap();
        while matcher.step(1).is_ok() {}
    }
    matcher.add(0, 1, 7, 0, 0, 2).unwrap();
    while matcher.step(0).is_ok() {}
    assert_eq!(matcher.quiet(), Ok(true));
    matcher.reply(0).unwrap().map(|number| matcher.match_(number).unwrap().messages[0])
}

#[test]
fn the_same_unit() {
    assert_eq!([0, 1, 2].map(|last_byte| paid(last_byte, &[1, 2])), [Some(0), Some(0), Some(1)]);
    assert_eq!([0, 1, 2].map(|last_byte| paid(last_byte, &[0, 65_535])), [Some(0), Some(0), None]);
    let mut table = TABLE_P;
    table[17] = 3;
    assert_eq!(Matcher::open(table).unwrap_err(), Refusal::ChordRecord);
}

#[test]
fn refusals() {
    assert_eq!(Matcher::open([0; 11]).unwrap_err(), Refusal::TableTooShort);
    assert_eq!(Matcher::open(&TABLE_P[..19]).unwrap_err().number(), 3);
    let mut matcher = Matcher::open(TABLE_P).unwrap();
    assert_eq!(matcher.add(32, 0, 0, 0, 0, 0), Err(Refusal::NoSuchSender));
    assert_eq!(matcher.add(0, 2, 0, 0, 0, 0), Err(Refusal::NoSuchChannel));
    let refusal = matcher.add(0, 0, 0, 1_000_000_000_000, 0, 0).unwrap_err();
    assert_eq!(refusal.to_string(), "the cents are out of range");
    matcher.add(0, 0, 0, 0, 0, 0).unwrap();
    assert_eq!(matcher.add(0, 0, 0, 0, 0, 0), Err(Refusal::SenderNotIdle));
}
