//! The letters of MEMX-TCP, each table a kind of its own.
//!
//! A kind holds whatever byte was put into it; readers and writers say whether that is lawful.

/// Makes a kind of each table, and of each of its letters a constant.
macro_rules! tables {
    ($($(#[$about:meta])* $name:ident { $($(#[$what:meta])* $meaning:ident = $letter:literal,)* })*) => {$(
        $(#[$about])*
        #[derive(Clone, Copy, Debug, PartialEq, Eq, Hash)]
        pub struct $name(pub u8);

        impl $name {
            $($(#[$what])* pub const $meaning: $name = $name($letter);)*

            /// Whether the table has it.
            #[inline]
            pub fn is_known(self) -> bool {
                matches!(self.0, $($letter)|*)
            }
        }
    )*};
}

tables! {
    /// Which requests a connection supports.
    Mode {
        /// Stream requests.
        STREAM = b'S',
        /// Replay requests.
        REPLAY = b'R',
        /// Requests to replay everything.
        SNAPSHOT = b'T',
    }

    /// Why a login was rejected.
    LoginReject {
        /// The token is malformed.
        MALFORMED_TOKEN = b'T',
        /// The token's type is not supported by this server.
        UNSUPPORTED_TYPE = b'U',
        /// The token's type is not valid on any server.
        INVALID_TYPE = b'V',
        /// Authorization failed.
        NOT_AUTHORISED = b'A',
    }

    /// Why a replay was rejected.
    ReplayReject {
        /// The server allows no replay requests.
        NO_REPLAYS = b'R',
        /// The server allows no requests to replay everything.
        NO_REPLAY_ALL = b'A',
        /// The session is not the active one.
        NOT_ACTIVE = b'P',
        /// The start is out of range; another request may be made.
        OUT_OF_RANGE = b'S',
    }

    /// Why a stream was rejected.
    StreamReject {
        /// The server allows no stream requests.
        NO_STREAMS = b'R',
        /// The session is not the active one.
        NOT_ACTIVE = b'P',
        /// The start is out of range; another request may be made.
        OUT_OF_RANGE = b'S',
    }

    /// What a login's token is.
    TokenType {
        /// User and password, as `user:password`.
        STATIC_PASSWORD = b'P',
    }
}
