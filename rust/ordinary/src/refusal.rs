//! The sixteen ways in which the desk says no.

use std::error::Error;
use std::fmt;

/// Why something was refused; nothing lent has changed then.
#[derive(Clone, Copy, Debug, PartialEq, Eq, Hash)]
#[repr(u8)]
pub enum Refusal {
    /// There are no bytes at all.
    Empty = 1,
    /// A packet, or a message for the log, has more bytes than its limit.
    Oversize = 2,
    /// The type byte is none that the protocol has.
    UnknownType = 3,
    /// Too short, too long, a block past the end, bytes left over, no linefeed at the end.
    Framing = 4,
    /// Padding, alphabet, reason code or header length.
    Form = 5,
    /// Blank or zero where something must stand.
    Blank = 6,
    /// A number above its bound.
    Bound = 7,
    /// A Soup linefeed before the last byte.
    Linefeed = 8,
    /// The lent output is too short.
    Room = 9,
    /// A record, sheet, log or stream that doesn't hang together.
    Broken = 10,
    /// A MEMX session other than the record's.
    OtherSession = 11,
    /// What is told contradicts what is known.
    Contradiction = 12,
    /// A message added, or an end declared, after the end.
    AfterEnd = 13,
    /// A clock reading below the last one.
    ClockBack = 14,
    /// A measure or a wait rule out of range.
    Range = 15,
    /// A readable packet that isn't for the session record, or out of turn in its stream.
    NotForRecord = 16,
}

impl Refusal {
    /// The number under which document 01 lists it.
    pub fn number(self) -> u8 {
        self as u8
    }
}

impl fmt::Display for Refusal {
    fn fmt(&self, f: &mut fmt::Formatter<'_>) -> fmt::Result {
        let reason = match self {
            Refusal::Empty => "no bytes at all",
            Refusal::Oversize => "too many bytes",
            Refusal::UnknownType => "unknown type byte",
            Refusal::Framing => "the lengths don't fit",
            Refusal::Form => "a field is badly formed",
            Refusal::Blank => "blank or zero where something must stand",
            Refusal::Bound => "a number above its bound",
            Refusal::Linefeed => "a linefeed before the last byte",
            Refusal::Room => "the lent output is too short",
            Refusal::Broken => "a record, sheet, log or stream that doesn't hang together",
            Refusal::OtherSession => "another session than the record's",
            Refusal::Contradiction => "a contradiction",
            Refusal::AfterEnd => "the end was declared already",
            Refusal::ClockBack => "the clock went back",
            Refusal::Range => "a measure or a wait rule out of range",
            Refusal::NotForRecord => "not for the session record, or out of turn in its stream",
        };
        write!(f, "refused ({}): {reason}", self.number())
    }
}

impl Error for Refusal {}
