//! The desk in the shape of the C face: the same functions and structs, name for name.
//!
//! Every answer begins with `refusal`: 0 where what was given is taken, else the number that
//! document 01 gives. On a refusal every other number of the answer is 0, a record, sheet, log or
//! stream in the answer equals the one that was given, and no lent byte has changed. Bytes that stand
//! for a style, a flag or a rule come raw and may have any value.

#![allow(non_camel_case_types)] // the names are the C face's own

mod clock;
mod log;
mod memx_tcp;
mod packets;
mod pieces;
mod record;

pub use clock::*;
pub use log::*;
pub use memx_tcp::*;
pub use packets::*;
pub use pieces::*;
pub use record::*;

use crate::refusal::Refusal;

/// How many bytes were written.
#[repr(C)]
#[derive(Clone, Copy, Debug, Default, PartialEq, Eq)]
pub struct hp_wrote {
    /// 0 or why it was refused.
    pub refusal: u64,
    /// How many bytes were written.
    pub bytes: u64,
}

impl From<Result<usize, Refusal>> for hp_wrote {
    fn from(written: Result<usize, Refusal>) -> Self {
        match written {
            Ok(bytes) => hp_wrote {
                refusal: 0,
                bytes: bytes as u64,
            },
            Err(refusal) => hp_wrote {
                refusal: number(refusal),
                bytes: 0,
            },
        }
    }
}

fn number(refusal: Refusal) -> u64 {
    u64::from(refusal.number())
}

/// A flag's byte; one that is neither 0 nor 1 is 10.
fn flag(byte: u8) -> Result<bool, Refusal> {
    match byte {
        0 => Ok(false),
        1 => Ok(true),
        _ => Err(Refusal::Broken),
    }
}
