//! Why a call was refused.

use std::{error, fmt};

macro_rules! refusals {
    ($($name:ident $number:literal $sentence:literal)*) => {
        /// Why a call was refused; a refused call alters nothing.
        #[derive(Clone, Copy, Debug, PartialEq, Eq)]
        pub enum Refusal {
            $(#[doc = $sentence] $name,)*
            /// A number that the host library does not document.
            Other(u8),
        }

        impl Refusal {
            /// The refusal of that number.
            pub fn from_number(number: u8) -> Refusal {
                match number {
                    $($number => Refusal::$name,)*
                    other => Refusal::Other(other),
                }
            }

            /// Its number, as the program prints it.
            pub fn number(self) -> u8 {
                match self {
                    $(Refusal::$name => $number,)*
                    Refusal::Other(number) => number,
                }
            }
        }

        impl fmt::Display for Refusal {
            fn fmt(&self, f: &mut fmt::Formatter) -> fmt::Result {
                match self {
                    $(Refusal::$name => f.write_str($sentence),)*
                    Refusal::Other(number) => write!(f, "refused for a reason without a name, number {number}"),
                }
            }
        }
    };
}

refusals! {
    TableTooShort 1 "the table is under 12 bytes"
    TableCounts 2 "the table's channels, chords or members are out of range"
    TableLayout 3 "the table's offsets or length are wrong"
    ChannelByte 4 "a channel's byte in the table is over 1"
    ChordRecord 5 "a chord in the table has a wrong first member, a count not 1 to 8, or a last byte over 2"
    MemberCounts 6 "the member counts of the table's chords do not sum to its members"
    MemberChannel 7 "a member in the table is of a channel that the table does not have"
    NoSuchSender 8 "the sender is 32 or more"
    SenderNotIdle 9 "the sender is not idle"
    NoSuchChannel 10 "the table has no such channel"
    CentsOutOfRange 11 "the cents are out of range"
    NothingToStep 13 "the sender is idle, or blocked without a signal"
    NoSuchMessage 14 "there is no such message"
    NoSuchMatch 15 "there is no such match"
    LineUnreadable 16 "the line is unreadable"
    ChannelMap 17 "the map has another length, names a channel that is not there or one twice, or joins two kinds"
    MergedCounts 18 "the merged table would have over 16 channels, 32 chords or 256 members"
    DayClosed 19 "the day is the close day or before it"
    EarlierCloseDay 20 "the close day is before the present one"
    WrongBackoffs 21 "the backoff table does not have 16 entries, or one is over 64 or less than the one before it"
    ShareUsedUp 26 "the sender has added its own 16 messages, and the 512 common ones are used up"
    NotSound 30 "the lent lists are not of their lengths, or the board is not sound"
    BufferTooShort 31 "the buffer is too short"
    NoSuchChord 32 "there is no such chord"
}

impl error::Error for Refusal {}
