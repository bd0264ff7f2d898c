//! The reference behind the host interface.

use crate::calls::{Call, Calls, Merge, Read};
use reference::board::kept;
use reference::{Board, Lists, NUMBERS, Rows, Table, calls, table};

#[derive(Default)]
pub struct Reference {
    /// Kept from call to call for its memory only.
    spare: reference::Columns,
}

/// What lists are, to an accepted table.
#[derive(Clone, Copy, PartialEq, Eq)]
pub enum Verdict {
    NoBoard,
    Unsound,
    Sound,
}

impl Reference {
    fn held(&mut self, lists: &Lists) -> Option<Board> {
        lists.held(std::mem::take(&mut self.spare))
    }

    fn hold(&mut self, lists: &mut Lists, board: Board) {
        lists.hold(&board);
        self.spare = board.columns;
    }

    pub fn verdict(&mut self, table: &Table, lists: &Lists) -> Verdict {
        let Some(board) = self.held(lists) else { return Verdict::NoBoard };
        let sound = board.is_sound(table);
        self.spare = board.columns;
        if sound { Verdict::Sound } else { Verdict::Unsound }
    }
}

const NO_BOARD: u32 = 17 * 65_536 + 30;

impl Calls for Reference {
    fn table_refusal(&mut self, table: &[u8]) -> u8 {
        table::table_refusal(table)
    }

    fn open(&mut self, table: &[u8], rests: Option<&[u8]>, board: &mut [u16]) -> u8 {
        match rests.map_or_else(|| calls::open(table), |rests| calls::open_with_rests(table, rests)) {
            Err(number) => number,
            Ok(_) if board.len() != NUMBERS => 30,
            Ok(opened) => {
                board.copy_from_slice(&opened.to_numbers());
                0
            }
        }
    }

    fn call(&mut self, table: &[u8], lists: &mut Lists, call: Call) -> u32 {
        let refusal = table::table_refusal(table);
        if refusal != 0 {
            return 17 * 65_536 + u32::from(refusal);
        }
        let Some(mut board) = self.held(lists) else { return NO_BOARD };
        let answer = calls::call(table, &mut board, call);
        self.hold(lists, board);
        answer.number()
    }

    fn replay(&mut self, table: &[u8], lists: &mut Lists, rows: &Rows, answers: &mut [u32]) -> u8 {
        let refusal = table::table_refusal(table);
        if refusal != 0 {
            return refusal;
        }
        let Some(mut board) = self.held(lists) else { return 30 };
        let played = calls::replay(table, &mut board, rows, answers);
        self.hold(lists, board);
        played.err().unwrap_or(0)
    }

    fn read(&mut self, table: &[u8], lists: &mut Lists, read: Read, out: &mut [i64]) -> u8 {
        let refusal = table::table_refusal(table);
        if refusal != 0 {
            return refusal;
        }
        let Some(board) = self.held(lists) else { return 30 };
        let numbers = numbers_read(table, &board, read);
        self.spare = board.columns;
        match numbers {
            Err(number) => number,
            Ok(numbers) if out.len() < numbers.len() => 31,
            Ok(numbers) => {
                out[..numbers.len()].copy_from_slice(&numbers);
                0
            }
        }
    }

    fn merge(&mut self, merge: &Merge, out: &mut [u8]) -> u8 {
        reference::merge::merge(&merge.first, &merge.second, &merge.map, out)
    }
}

fn numbers_read(table: &[u8], board: &Board, read: Read) -> Result<Vec<i64>, u8> {
    Ok(match read {
        Read::Message(number) => {
            let read = calls::message(table, board, number)?;
            let (matched, waker) = (kept(read.matched).into(), kept(read.waker).into());
            let (channel, property) = (read.channel.into(), read.property.into());
            vec![channel, property, read.cents, read.status.into(), matched, waker, read.day.into(), read.unit.into()]
        }
        Read::Match(number) => {
            let read = calls::match_(table, board, number)?;
            let mut numbers = vec![read.chord.into(), read.len.into(), read.cents];
            numbers.extend(read.messages.map(i64::from));
            numbers
        }
        Read::Reply(sender) => vec![kept(calls::reply(table, board, sender)?).into()],
        Read::Quiet => vec![calls::quiet(table, board)?.into()],
    })
}
