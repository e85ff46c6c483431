//! The proved recording desk for Rust: packets, Soup streams, the session record, patience, the lending end.
//!
//! Everything here calls the proved archive through its C face. Packets and blocks are read as
//! slices of the caller's bytes, nothing is allocated, and what is refused changes nothing. The
//! numbers in the text are those of document 01's refusals; see [`Refusal`].
//!
//! ```
//! use hinurapay::{Area, Log, Name, Record, Sequence};
//!
//! // the server logs a message and sends it as it comes
//! let mut bytes = [0; 100];
//! let mut log = Log::over(&mut bytes);
//! log.add(b"hello")?;
//! log.declare_end()?;
//! let mut datagram = [0; 1472];
//! let length = log.answer(Sequence(1), 1, &mut datagram)?;
//!
//! // the recorder takes it; had it come early, it would be held in the area
//! let mut record = Record::open_ufo(Name(*b"8841      "))?;
//! let mut area = Area::new();
//! let mut out = [0; 1472];
//! let taken = record.take(&mut area, &datagram[..length], &mut out)?;
//! assert_eq!(taken.blocks, log.blocks());
//! assert!(!record.standing()?.complete, "the end was not heard yet");
//!
//! let length = log.end_packet(&mut datagram)?;
//! record.take(&mut area, &datagram[..length], &mut out)?;
//! assert!(record.standing()?.complete);
//! # Ok::<(), hinurapay::Refusal>(())
//! ```

#![no_std]
#![deny(missing_docs, unsafe_code)]

mod area;
mod blocks;
mod clock;
#[allow(unsafe_code)]
mod ffi;
mod kinds;
mod lend;
pub mod memx;
pub mod memx_tcp;
mod missing;
mod pieces;
mod record;
mod refusal;
pub mod soup;
#[allow(non_camel_case_types)] // the names are the C face's own
mod structs;
pub mod ufo;

pub use area::Area;
pub use blocks::Blocks;
pub use clock::{heartbeat_due, line_lost, Patience, Sheet};
pub use kinds::{Name, Password, Reason, Sequence, SessionId, Tick, User};
pub use lend::Log;
pub use missing::Missing;
pub use pieces::{Fed, Handed, Pieces};
pub use record::{Asked, Record, Standing, Taken};
pub use refusal::Refusal;

/// The C face as plain structs and safe functions, name for name; the comparison uses it.
///
/// Every answer begins with `refusal`: 0 where what was given is taken, else the number that
/// document 01 gives. On a refusal every other number of the answer is 0, a record, sheet, log or
/// stream in the answer equals the one that was given, and no lent byte has changed.
pub mod flat {
    pub use crate::ffi::*;
    pub use crate::structs::*;
}

/// The README's first use is run as a test.
#[cfg(doctest)]
#[doc = include_str!("../../../README.md")]
struct Readme;
