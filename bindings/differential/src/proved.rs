//! The proved host library behind the same interface.

use crate::calls::{Call, Calls, Merge, Read};
use gevnyusto::host;
use reference::{Lists, Rows, Sent};
use std::mem::take;

pub struct Host;

/// Hands the lists over for a call and takes them back.
fn lent<T>(lists: &mut Lists, call: impl FnOnce(&mut host::Lists) -> T) -> T {
    let mut lent = host::Lists {
        board: take(&mut lists.board),
        bytes: take(&mut lists.bytes),
        links: take(&mut lists.links),
        keys: take(&mut lists.keys),
        cents: take(&mut lists.cents),
    };
    let said = call(&mut lent);
    let host::Lists { board, bytes, links, keys, cents } = lent;
    *lists = Lists { board, bytes, links, keys, cents };
    said
}

impl Calls for Host {
    fn table_refusal(&mut self, table: &[u8]) -> u8 {
        host::table_refusal(table)
    }

    fn open(&mut self, table: &[u8], rests: Option<&[u8]>, board: &mut [u16]) -> u8 {
        match rests {
            None => host::open(table, board),
            Some(rests) => host::open_with_rests(table, rests, board),
        }
    }

    fn call(&mut self, table: &[u8], lists: &mut Lists, call: Call) -> u32 {
        lent(lists, |lists| match call {
            Call::Add { sender, sent: Sent { channel, property, cents, day, unit } } => {
                host::add(table, lists, sender, channel, property, cents, day, unit)
            }
            Call::Step { sender } => host::step(table, lists, sender),
            Call::Close { day } => host::close(table, lists, day),
        })
    }

    fn replay(&mut self, table: &[u8], lists: &mut Lists, rows: &Rows, answers: &mut [u32]) -> u8 {
        let calls = host::Replay { calls: &rows.calls, numbers: &rows.numbers, amounts: &rows.amounts };
        lent(lists, |lists| host::replay(table, lists, calls, answers))
    }

    fn read(&mut self, table: &[u8], lists: &mut Lists, read: Read, out: &mut [i64]) -> u8 {
        lent(lists, |lists| match read {
            Read::Message(number) => host::read_message(table, lists, number, out),
            Read::Match(number) => host::read_match(table, lists, number, out),
            Read::Reply(sender) => host::read_reply(table, lists, sender, out),
            Read::Quiet => host::quiet(table, lists, out),
        })
    }

    fn merge(&mut self, merge: &Merge, out: &mut [u8]) -> u8 {
        host::merge_tables(&merge.first, &merge.second, &merge.map, out)
    }
}
