//! The letters of MEMX-TCP, each table a kind of its own.

/// What a server can be asked for.
#[derive(Clone, Copy, Debug, PartialEq, Eq, Hash)]
#[repr(u8)]
pub enum Mode {
    /// Streams, from a number on.
    Stream = b'S',
    /// Replays, from a number on and so many.
    Replay = b'R',
    /// Replays of everything there is.
    Snapshot = b'T',
}

/// Why a login was turned down.
#[derive(Clone, Copy, Debug, PartialEq, Eq, Hash)]
#[repr(u8)]
pub enum LoginReject {
    /// The token is malformed.
    MalformedToken = b'T',
    /// This server doesn't support the token's type.
    UnsupportedType = b'U',
    /// No server has such a token type.
    InvalidType = b'V',
    /// Authorization failed.
    NotAuthorised = b'A',
}

/// Why a request for a replay was turned down.
#[derive(Clone, Copy, Debug, PartialEq, Eq, Hash)]
#[repr(u8)]
pub enum ReplayReject {
    /// This server allows no replay requests; it is to be asked for streams.
    NoReplays = b'R',
    /// This server allows no requests for everything; it is to be asked for ranges.
    NoReplayAll = b'A',
    /// The session asked for is not the active one.
    NotActive = b'P',
    /// The first number is out of range; another may be asked for.
    OutOfRange = b'S',
}

/// Why a request for a stream was turned down.
#[derive(Clone, Copy, Debug, PartialEq, Eq, Hash)]
#[repr(u8)]
pub enum StreamReject {
    /// This server allows no stream requests; it is to be asked for replays.
    NoStreams = b'R',
    /// The session asked for is not the active one.
    NotActive = b'P',
    /// The first number is out of range; another may be asked for.
    OutOfRange = b'S',
}

impl Mode {
    /// The mode that a reader found.
    pub(super) fn read(letter: u8) -> Mode {
        match letter {
            b'S' => Mode::Stream,
            b'R' => Mode::Replay,
            _ => Mode::Snapshot,
        }
    }
}

impl LoginReject {
    /// The code that a reader found.
    pub(super) fn read(letter: u8) -> LoginReject {
        match letter {
            b'T' => LoginReject::MalformedToken,
            b'U' => LoginReject::UnsupportedType,
            b'V' => LoginReject::InvalidType,
            _ => LoginReject::NotAuthorised,
        }
    }
}

impl ReplayReject {
    /// The code that a reader found.
    pub(super) fn read(letter: u8) -> ReplayReject {
        match letter {
            b'R' => ReplayReject::NoReplays,
            b'A' => ReplayReject::NoReplayAll,
            b'P' => ReplayReject::NotActive,
            _ => ReplayReject::OutOfRange,
        }
    }
}

impl StreamReject {
    /// The code that a reader found.
    pub(super) fn read(letter: u8) -> StreamReject {
        match letter {
            b'R' => StreamReject::NoStreams,
            b'P' => StreamReject::NotActive,
            _ => StreamReject::OutOfRange,
        }
    }
}
