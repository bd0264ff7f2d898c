//! Reads `rules.bin` and calls from standard input, and prints 01's printout.

use reference::board::CONSUMED;
use reference::{Answer, Board, Call, Sent, Table};
use std::io::{self, BufWriter, Read, Write};

const STATUSES: [&str; 4] = ["pending", "claimed", "woken", "consumed"];
/// The longest table, and the longest line.
const MOST_TABLE: usize = 412;
const MOST_LINE: usize = 80;

fn main() -> io::Result<()> {
    let mut out = BufWriter::new(io::stdout().lock());
    let bytes = std::fs::read("rules.bin").unwrap_or_default();
    let table = match Table::read(&bytes[..bytes.len().min(MOST_TABLE + 1)]) {
        Ok(table) => table,
        Err(number) => return writeln!(out, "{}", Answer::Refused(number)),
    };
    let mut input = Vec::new();
    io::stdin().read_to_end(&mut input)?;
    let mut board = Board::default();
    for line in lines(&input) {
        let answer = read_line(line).map_or(Answer::Refused(16), |call| board.core_call(&table, call));
        writeln!(out, "{answer}")?;
    }
    report(&mut out, &table, &board)
}

/// A line feed that ends the input starts no further line.
fn lines(input: &[u8]) -> impl Iterator<Item = &[u8]> {
    let whole = input.strip_suffix(b"\n").unwrap_or(input);
    whole.split(|&byte| byte == b'\n').take(if input.is_empty() { 0 } else { usize::MAX })
}

fn read_line(line: &[u8]) -> Option<Call> {
    if line.len() > MOST_LINE {
        return None;
    }
    let words: Vec<&[u8]> = line.split(|&byte| byte == b' ').collect();
    match words[..] {
        [b"a", sender, channel, property, cents] => add([sender, channel, property, cents, b"0", b"0"]),
        [b"a", sender, channel, property, cents, day] => add([sender, channel, property, cents, day, b"0"]),
        [b"a", sender, channel, property, cents, day, unit] => add([sender, channel, property, cents, day, unit]),
        [b"s", sender] => Some(Call::Step { sender: number(sender)?.try_into().ok()? }),
        _ => None,
    }
}

fn add([sender, channel, property, cents, day, unit]: [&[u8]; 6]) -> Option<Call> {
    let sent = Sent {
        channel: number(channel)?.try_into().ok()?,
        property: number(property)?.try_into().ok()?,
        cents: signed(cents)?,
        day: number(day)?.try_into().ok()?,
        unit: number(unit)?.try_into().ok()?,
    };
    Some(Call::Add { sender: number(sender)?.try_into().ok()?, sent })
}

/// Decimal digits, at least one; none above a u64.
fn number(word: &[u8]) -> Option<u64> {
    let digits = !word.is_empty() && word.iter().all(u8::is_ascii_digit);
    let add = |sum: u64, digit: &u8| sum.checked_mul(10)?.checked_add(u64::from(digit - b'0'));
    if digits { word.iter().try_fold(0, add) } else { None }
}

/// At most 18 digits, perhaps after a minus.
fn signed(word: &[u8]) -> Option<i64> {
    let (digits, sign) = word.strip_prefix(b"-").map_or((word, 1), |digits| (digits, -1));
    if digits.len() > 18 { None } else { Some(sign * i64::try_from(number(digits)?).ok()?) }
}

fn report(out: &mut impl Write, table: &Table, board: &Board) -> io::Result<()> {
    for number in 0..board.matches {
        let read = board.match_(table, number);
        write!(out, "match {number} rule {} cents {} items", read.chord, read.cents)?;
        for message in &read.messages[..read.len.into()] {
            write!(out, " {message}")?;
        }
        writeln!(out)?;
    }
    for message in 0..board.messages {
        let status = board.status(message);
        if status != CONSUMED {
            writeln!(out, "open {message} {}", STATUSES[status as usize])?;
        }
    }
    writeln!(out, "quiet {}", if board.is_quiet() { "yes" } else { "no" })
}
