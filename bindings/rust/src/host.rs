//! The host library's functions over plain slices, which may hold anything: what is wrong is refused by number.
//!
//! All unsafe code is here: each function lends its slices as pointer and length for the time of the call.
#![allow(unsafe_code)]

/// The lengths of a board's lists.
pub const BOARD_NUMBERS: usize = 723;
pub const BYTES: usize = 3072;
pub const LINKS: usize = 11_264;
pub const KEYS: usize = 2049;
pub const CENTS: usize = 1024;
/// Where the days begin in `keys`.
pub const DAYS: usize = 1024;
/// Where `board` says whether a day is closed, and `keys` which one.
pub const HAS_CLOSE: usize = 674;
pub const CLOSE_DAY: usize = 2048;
/// Where the tallies begin in `board`: how many messages each sender has added.
pub const TALLIES: usize = 675;
/// How many messages are each sender's own, and how many common.
pub const SHARE: u16 = 16;
pub const COMMON: u16 = 512;
/// Where the backoff table begins in `board`: for how many steps a sender rests after the first `again` of a job, after
/// the second, and so on.
pub const BACKOFFS: usize = 707;
/// How many entries it has, and how many rests an entry may say.
pub const BACKOFF_ENTRIES: usize = 16;
pub const MOST_RESTS: u8 = 64;
/// Where the units begin in `links`.
pub const UNITS: usize = 10_240;
/// The longest table.
pub const TABLE_BYTES: usize = 412;
/// A map's byte for a channel that becomes a new one.
pub const NEW_CHANNEL: u8 = 255;
/// Kinds of a replay's calls; any other than a step or a close is an add.
pub const STEP: u16 = 0;
pub const ADD: u16 = 1;
pub const CLOSE: u16 = 2;

/// The lists that a board is; bindings/c/gevnyusto.h says what stands where.
#[derive(Clone, Debug, PartialEq, Eq)]
pub struct Lists {
    pub board: Vec<u16>,
    pub bytes: Vec<u8>,
    pub links: Vec<u16>,
    pub keys: Vec<u32>,
    pub cents: Vec<i64>,
}

impl Default for Lists {
    fn default() -> Lists {
        Lists {
            board: vec![0; BOARD_NUMBERS],
            bytes: vec![0; BYTES],
            links: vec![0; LINKS],
            keys: vec![0; KEYS],
            cents: vec![0; CENTS],
        }
    }
}

/// The calls of a replay, a row each: of `calls` the kind, the sender, the channel and the unit, of `numbers` the
/// property and the day. Of a close the day is read and nothing else.
#[derive(Clone, Copy, Debug)]
pub struct Replay<'a> {
    pub calls: &'a [u16],
    pub numbers: &'a [u32],
    pub amounts: &'a [i64],
}

/// Declares a function of a table and a board's lists, then of more.
macro_rules! board_function {
    ($name:ident, $pointer:ident, [$($more:ty),*], $answer:ty) => {
        unsafe extern "C" {
            fn $name(
                table: *const u8, table_len: usize,
                board: *$pointer u16, board_len: usize,
                bytes: *$pointer u8, bytes_len: usize,
                links: *$pointer u16, links_len: usize,
                keys: *$pointer u32, keys_len: usize,
                cents: *$pointer i64, cents_len: usize,
                $(_: $more),*
            ) -> $answer;
        }
    };
}

/// Calls such a function.
macro_rules! lend {
    ($name:ident, $pointer:ident, $table:ident, $lists:ident, [$($more:expr),*]) => {
        // SAFETY: every pointer and length is that of a slice which is borrowed until the call returns, exclusively
        // where the function writes.
        unsafe {
            $name(
                $table.as_ptr(), $table.len(),
                $lists.board.$pointer(), $lists.board.len(),
                $lists.bytes.$pointer(), $lists.bytes.len(),
                $lists.links.$pointer(), $lists.links.len(),
                $lists.keys.$pointer(), $lists.keys.len(),
                $lists.cents.$pointer(), $lists.cents.len(),
                $($more),*
            )
        }
    };
}

unsafe extern "C" {
    fn gv_table_refusal(table: *const u8, table_len: usize) -> u8;
    fn gv_merge_tables(
        first: *const u8,
        first_len: usize,
        second: *const u8,
        second_len: usize,
        map: *const u8,
        map_len: usize,
        out: *mut u8,
        out_len: usize,
    ) -> u8;
    fn gv_open(table: *const u8, table_len: usize, board: *mut u16, board_len: usize) -> u8;
    fn gv_open_with_rests(
        table: *const u8,
        table_len: usize,
        rests: *const u8,
        rests_len: usize,
        board: *mut u16,
        board_len: usize,
    ) -> u8;
}
board_function!(gv_add, mut, [u16, u16, u32, i64, u32, u16], u32);
board_function!(gv_step, mut, [u16], u32);
board_function!(gv_close, mut, [u32], u32);
board_function!(gv_replay, mut, [*const u16, usize, *const u32, usize, *const i64, usize, *mut u32, usize], u8);
board_function!(gv_read_message, const, [u16, *mut i64, usize], u8);
board_function!(gv_read_match, const, [u16, *mut i64, usize], u8);
board_function!(gv_read_reply, const, [u16, *mut i64, usize], u8);
board_function!(gv_quiet, const, [*mut i64, usize], u8);

pub fn table_refusal(table: &[u8]) -> u8 {
    // SAFETY: the slice is borrowed until the call returns.
    unsafe { gv_table_refusal(table.as_ptr(), table.len()) }
}

/// Writes the merged table from the start of `out`; the map has a byte for each channel of the second.
pub fn merge_tables(first: &[u8], second: &[u8], map: &[u8], out: &mut [u8]) -> u8 {
    let (first_len, second_len, map_len, out_len) = (first.len(), second.len(), map.len(), out.len());
    let (first, second, map, out) = (first.as_ptr(), second.as_ptr(), map.as_ptr(), out.as_mut_ptr());
    // SAFETY: the four slices are borrowed until the call returns, the last one exclusively.
    unsafe { gv_merge_tables(first, first_len, second, second_len, map, map_len, out, out_len) }
}

pub fn open(table: &[u8], board: &mut [u16]) -> u8 {
    // SAFETY: both slices are borrowed until the call returns, the board exclusively.
    unsafe { gv_open(table.as_ptr(), table.len(), board.as_mut_ptr(), board.len()) }
}

/// Opens a board with that backoff table in place of the built-in one.
pub fn open_with_rests(table: &[u8], rests: &[u8], board: &mut [u16]) -> u8 {
    let (table_len, rests_len, board_len) = (table.len(), rests.len(), board.len());
    let (table, rests, board) = (table.as_ptr(), rests.as_ptr(), board.as_mut_ptr());
    // SAFETY: the three slices are borrowed until the call returns, the board exclusively.
    unsafe { gv_open_with_rests(table, table_len, rests, rests_len, board, board_len) }
}

#[expect(clippy::too_many_arguments)]
pub fn add(
    table: &[u8],
    lists: &mut Lists,
    sender: u16,
    channel: u16,
    property: u32,
    cents: i64,
    day: u32,
    unit: u16,
) -> u32 {
    lend!(gv_add, as_mut_ptr, table, lists, [sender, channel, property, cents, day, unit])
}

pub fn step(table: &[u8], lists: &mut Lists, sender: u16) -> u32 {
    lend!(gv_step, as_mut_ptr, table, lists, [sender])
}

pub fn close(table: &[u8], lists: &mut Lists, day: u32) -> u32 {
    lend!(gv_close, as_mut_ptr, table, lists, [day])
}

pub fn replay(table: &[u8], lists: &mut Lists, Replay { calls, numbers, amounts }: Replay, answers: &mut [u32]) -> u8 {
    let (calls_len, numbers_len, amounts_len) = (calls.len(), numbers.len(), amounts.len());
    let (calls, numbers, amounts) = (calls.as_ptr(), numbers.as_ptr(), amounts.as_ptr());
    let (answers, answers_len) = (answers.as_mut_ptr(), answers.len());
    lend!(
        gv_replay,
        as_mut_ptr,
        table,
        lists,
        [calls, calls_len, numbers, numbers_len, amounts, amounts_len, answers, answers_len]
    )
}

/// Channel, property, cents, status, match plus 1, waker plus 1, day, unit.
pub fn read_message(table: &[u8], lists: &Lists, number: u16, out: &mut [i64]) -> u8 {
    lend!(gv_read_message, as_ptr, table, lists, [number, out.as_mut_ptr(), out.len()])
}

/// Chord, length, cents, eight messages.
pub fn read_match(table: &[u8], lists: &Lists, number: u16, out: &mut [i64]) -> u8 {
    lend!(gv_read_match, as_ptr, table, lists, [number, out.as_mut_ptr(), out.len()])
}

/// The match on the sender's slip plus 1.
pub fn read_reply(table: &[u8], lists: &Lists, sender: u16, out: &mut [i64]) -> u8 {
    lend!(gv_read_reply, as_ptr, table, lists, [sender, out.as_mut_ptr(), out.len()])
}

/// 1 if the board is quiet, else 0.
pub fn quiet(table: &[u8], lists: &Lists, out: &mut [i64]) -> u8 {
    lend!(gv_quiet, as_ptr, table, lists, [out.as_mut_ptr(), out.len()])
}
