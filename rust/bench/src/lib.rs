//! Replays of many small messages, each the same through the proved desk and the ordinary one.
//!
//! A replay gives the messages of a tape to a desk and answers with a checksum of what the desk
//! said and wrote. It panics if any is refused, but for logins that are read, where a refusal is an
//! answer too.

#![deny(missing_docs)]

mod datagrams;
mod desk;
mod log;
mod login;
mod pieces;
mod stream;
mod tape;

use datagrams::{InOrder, Memx, MemxJumbo, SecondLate, Ufo};
use desk::{Ordinary, Proved};
use stream::{Soup, Tcp};

/// Replays so many messages, whole turns of the tape, and gives the checksum.
pub type Run = fn(u64) -> u64;

pub use login::logins;
pub use tape::TURN;

/// One replay, through each desk.
pub struct Replay {
    /// What it is called.
    pub name: &'static str,
    /// What each message goes through.
    pub about: &'static str,
    /// Through the proved desk.
    pub proved: Run,
    /// Through the ordinary one.
    pub ordinary: Run,
}

/// Every replay there is.
pub const REPLAYS: [Replay; 15] = [
    Replay {
        name: "ufo",
        about: "UFO datagrams of 50 messages, each read and then taken into a session record",
        proved: datagrams::replay::<Ufo, InOrder, Proved, 50>,
        ordinary: datagrams::replay::<Ufo, InOrder, Ordinary, 50>,
    },
    Replay {
        name: "ufo-single",
        about: "the same with one message to a datagram",
        proved: datagrams::replay::<Ufo, InOrder, Proved, 1>,
        ordinary: datagrams::replay::<Ufo, InOrder, Ordinary, 1>,
    },
    Replay {
        name: "memx",
        about: "MEMX-UDP datagrams of 50 messages, each read and then taken into a session record",
        proved: datagrams::replay::<Memx, InOrder, Proved, 50>,
        ordinary: datagrams::replay::<Memx, InOrder, Ordinary, 50>,
    },
    Replay {
        name: "memx-jumbo",
        about: "the same in full datagrams of 8,972 bytes, 400 messages to each",
        proved: datagrams::replay::<MemxJumbo, InOrder, Proved, 400>,
        ordinary: datagrams::replay::<MemxJumbo, InOrder, Ordinary, 400>,
    },
    Replay {
        name: "held",
        about: "UFO datagrams of 10 messages, of which every second one comes after its successor",
        proved: datagrams::replay::<Ufo, SecondLate, Proved, 10>,
        ordinary: datagrams::replay::<Ufo, SecondLate, Ordinary, 10>,
    },
    Replay {
        name: "soup",
        about: "sequenced Soup packets, each read",
        proved: stream::replay::<Soup, Proved>,
        ordinary: stream::replay::<Soup, Ordinary>,
    },
    Replay {
        name: "pieces-1",
        about: "a Soup stream in pieces of one byte, its packets put together, read and numbered",
        proved: pieces::replay::<Proved, 1>,
        ordinary: pieces::replay::<Ordinary, 1>,
    },
    Replay {
        name: "pieces-7",
        about: "the same in pieces of 7 bytes",
        proved: pieces::replay::<Proved, 7>,
        ordinary: pieces::replay::<Ordinary, 7>,
    },
    Replay {
        name: "pieces-1400",
        about: "the same in pieces of 1,400 bytes",
        proved: pieces::replay::<Proved, 1400>,
        ordinary: pieces::replay::<Ordinary, 1400>,
    },
    Replay {
        name: "pieces-65536",
        about: "the same in pieces of 65,536 bytes",
        proved: pieces::replay::<Proved, 65_536>,
        ordinary: pieces::replay::<Ordinary, 65_536>,
    },
    Replay {
        name: "login",
        about: "Soup logins, asked for and accepted, each read, one in ten damaged in its number",
        proved: |count| login::read::<Proved>(1, count),
        ordinary: |count| login::read::<Ordinary>(1, count),
    },
    Replay {
        name: "login-noughts",
        about: "the same with noughts, not spaces, before each number that is not damaged",
        proved: |count| login::read::<Proved>(20, count),
        ordinary: |count| login::read::<Ordinary>(20, count),
    },
    Replay {
        name: "login-write",
        about: "the same logins, none damaged, each written",
        proved: login::write::<Proved>,
        ordinary: login::write::<Ordinary>,
    },
    Replay {
        name: "tcp",
        about: "sequenced MEMX-TCP packets, each read",
        proved: stream::replay::<Tcp, Proved>,
        ordinary: stream::replay::<Tcp, Ordinary>,
    },
    Replay {
        name: "log",
        about: "messages added to a log of at most 100, then asked for ten by ten",
        proved: log::replay::<Proved>,
        ordinary: log::replay::<Ordinary>,
    },
];
