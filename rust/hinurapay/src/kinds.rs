//! The kinds of number and text that must not be passed for one another.
//!
//! A kind holds whatever was put into it; readers and writers say whether that is lawful.

/// The number of a message in its session, counted from 1; 0 where there is none.
#[derive(Clone, Copy, Debug, Default, PartialEq, Eq, PartialOrd, Ord, Hash)]
pub struct Sequence(pub u64);

/// A session's name in UFO and Soup, padding and all.
#[derive(Clone, Copy, Debug, PartialEq, Eq, Hash)]
pub struct Name(pub [u8; 10]);

/// Who logs in, padding and all.
#[derive(Clone, Copy, Debug, PartialEq, Eq, Hash)]
pub struct User(pub [u8; 6]);

/// What the user proves it with, padding and all.
#[derive(Clone, Copy, Debug, PartialEq, Eq, Hash)]
pub struct Password(pub [u8; 10]);

/// A session's number in MEMX-UDP and MEMX-TCP.
#[derive(Clone, Copy, Debug, PartialEq, Eq, Hash)]
pub struct SessionId(pub u64);

/// A clock reading in whole milliseconds.
#[derive(Clone, Copy, Debug, PartialEq, Eq, PartialOrd, Ord, Hash)]
pub struct Tick(pub u64);

/// Why a login was turned down.
#[derive(Clone, Copy, Debug, PartialEq, Eq, Hash)]
#[repr(u8)]
pub enum Reason {
    /// User and password don't go together.
    NotAuthorised = b'A',
    /// The session asked for can't be had.
    NoSession = b'S',
}

impl Reason {
    /// The reason that a reader found.
    pub(crate) fn read(byte: u8) -> Reason {
        if byte == b'A' {
            Reason::NotAuthorised
        } else {
            Reason::NoSession
        }
    }
}
