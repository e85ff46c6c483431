//! The sixteen ways in which the desk says no.

use crate::flat::hp_wrote;
use core::error::Error;
use core::fmt;

macro_rules! refusals {
    ($($name:ident = $number:literal: $meaning:literal;)*) => {
        /// Why something was refused. Nothing that was lent has changed then.
        ///
        /// ```
        /// use hinurapay::{ufo, Refusal};
        ///
        /// let refusal = ufo::read_down(b"").unwrap_err();
        /// assert_eq!(refusal, Refusal::Empty);
        /// assert_eq!((refusal.number(), refusal.meaning()), (1, "no bytes at all"));
        /// assert_eq!(refusal.to_string(), "refused (1): no bytes at all");
        /// assert_eq!(Refusal::numbered(16), Some(Refusal::NotForRecord));
        /// ```
        #[derive(Clone, Copy, Debug, PartialEq, Eq, Hash)]
        #[repr(u8)]
        pub enum Refusal {
            $(#[doc = $meaning] $name = $number,)*
        }

        impl Refusal {
            /// Every refusal, by number.
            pub const ALL: [Refusal; 16] = [$(Refusal::$name),*];

            /// What it means, in one line.
            pub fn meaning(self) -> &'static str {
                match self {
                    $(Refusal::$name => $meaning,)*
                }
            }
        }
    };
}

refusals! {
    Empty = 1: "no bytes at all";
    Oversize = 2: "more bytes than a packet, or a message for the log, may have";
    UnknownType = 3: "a type byte that the protocol doesn't have";
    Framing = 4: "too short, too long, a block past the end, bytes left over, or no linefeed at the end";
    Form = 5: "padding, alphabet, reason code or header length";
    Blank = 6: "blank or zero where something must stand";
    Bound = 7: "a number above its bound";
    Linefeed = 8: "a Soup linefeed before the last byte";
    Room = 9: "lent output that is too short";
    Broken = 10: "a record, sheet, log or stream that doesn't hang together";
    OtherSession = 11: "a MEMX session other than the record's";
    Contradiction = 12: "news that contradict what is known";
    AfterEnd = 13: "a message added, or an end declared, after the end";
    ClockBack = 14: "a clock reading below the last one";
    Range = 15: "a measure or a wait rule out of range";
    NotForRecord = 16: "a readable packet that isn't for the session record, or out of turn in its stream";
}

impl Refusal {
    /// The number under which document 01 lists it.
    pub fn number(self) -> u8 {
        self as u8
    }

    /// The refusal of that number, if there is one.
    pub fn numbered(number: u64) -> Option<Refusal> {
        let place = usize::try_from(number.checked_sub(1)?).ok()?;
        Refusal::ALL.get(place).copied()
    }
}

impl fmt::Display for Refusal {
    fn fmt(&self, f: &mut fmt::Formatter<'_>) -> fmt::Result {
        write!(f, "refused ({}): {}", self.number(), self.meaning())
    }
}

impl Error for Refusal {}

/// The answer of the C face, where it is no refusal.
#[inline]
pub(crate) fn taken<T>(refusal: u64, answer: T) -> Result<T, Refusal> {
    match refusal {
        0 => Ok(answer),
        number => Err(Refusal::numbered(number).expect("the desk refuses with 1 to 16")),
    }
}

/// How many bytes a writer of the C face wrote.
#[inline]
pub(crate) fn written(wrote: hp_wrote) -> Result<usize, Refusal> {
    taken(wrote.refusal, wrote.bytes as usize)
}
