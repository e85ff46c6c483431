//! What several tests share: packets laid out by hand, checked slips, and a seeded generator.

#![allow(dead_code)] // each test file uses its own part

pub mod desk;
pub mod had;
pub mod stream;

use ordinary::held::{Held, AREA, SLOT};
use ordinary::memx::ROOM;
use ordinary::record::Record;
use ordinary::refusal::Refusal;
use std::iter;

/// A small generator that gives the same numbers for the same seed.
pub struct Dice(u64);

impl Dice {
    pub fn seeded(seed: u64) -> Dice {
        Dice(seed)
    }

    pub fn roll(&mut self) -> u64 {
        self.0 = self.0.wrapping_add(0x9e37_79b9_7f4a_7c15);
        let mut mixed = self.0;
        mixed = (mixed ^ (mixed >> 30)).wrapping_mul(0xbf58_476d_1ce4_e5b9);
        mixed = (mixed ^ (mixed >> 27)).wrapping_mul(0x94d0_49bb_1331_11eb);
        mixed ^ (mixed >> 31)
    }

    pub fn below(&mut self, bound: usize) -> usize {
        (self.roll() % bound as u64) as usize
    }

    pub fn one_in(&mut self, odds: usize) -> bool {
        self.below(odds) == 0
    }

    pub fn pick<T: Copy>(&mut self, from: &[T]) -> T {
        from[self.below(from.len())]
    }

    pub fn bytes(&mut self, length: usize) -> Vec<u8> {
        (0..length).map(|_| self.roll() as u8).collect()
    }
}

/// Messages as blocks.
pub fn blocks(messages: &[&[u8]]) -> Vec<u8> {
    let mut bytes = Vec::new();
    for message in messages {
        bytes.extend((message.len() as u16).to_be_bytes());
        bytes.extend(*message);
    }
    bytes
}

/// A UFO `S` packet.
pub fn ufo_s(first: u32, messages: &[&[u8]]) -> Vec<u8> {
    let count = (messages.len() as u16).to_be_bytes();
    [b"S", &first.to_be_bytes()[..], &count, &blocks(messages)].concat()
}

/// A UFO `S` packet of `count` messages, each of which says its number.
pub fn ufo_numbered(first: u32, count: u16) -> Vec<u8> {
    let numbers: Vec<String> = (first..first + u32::from(count))
        .map(|number| format!("message {number}"))
        .collect();
    let messages: Vec<&[u8]> = numbers.iter().map(|text| text.as_bytes()).collect();
    ufo_s(first, &messages)
}

/// The blocks that [`ufo_numbered`] puts into its packet.
pub fn numbered(first: u32, count: u16) -> Vec<u8> {
    ufo_numbered(first, count)[7..].to_vec()
}

/// A UFO `E` packet.
pub fn ufo_e(total: u32) -> Vec<u8> {
    [b"E", &total.to_be_bytes()[..]].concat()
}

/// A MEMX-UDP header.
pub fn memx(kind: u8, session: u64, number: u64) -> Vec<u8> {
    let start = [kind, 18];
    [&start[..], &session.to_be_bytes(), &number.to_be_bytes()].concat()
}

/// A MEMX-UDP type 2 packet.
pub fn memx_data(session: u64, first: u64, messages: &[&[u8]]) -> Vec<u8> {
    let count = (messages.len() as u16).to_be_bytes();
    [&memx(2, session, first)[..], &count, &blocks(messages)].concat()
}

/// Blocks that have so many bytes together, and how many there are: messages of `each` bytes, the last
/// one longer by what is left over.
pub fn filling(bytes: usize, each: usize) -> (u16, Vec<u8>) {
    let count = (bytes / (2 + each)).max(1);
    let (message, mut last) = (vec![b'x'; each], vec![b'y'; each]);
    last.resize(bytes - (count - 1) * (2 + each) - 2, b'z');
    let mut messages = vec![&message[..]; count - 1];
    messages.push(&last);
    (count as u16, blocks(&messages))
}

/// A MEMX-UDP packet with these bytes more in its header, which says so.
pub fn extended(packet: &[u8], extra: &[u8]) -> Vec<u8> {
    let (header, behind) = packet.split_at(18);
    let mut packet = [header, extra, behind].concat();
    packet[1] += extra.len() as u8;
    packet
}

/// A MEMX-TCP packet with these bytes behind its header.
pub fn tcp(kind: u8, bytes: &[u8]) -> Vec<u8> {
    let length = (bytes.len() as u16).to_be_bytes();
    [&[kind], &length[..], bytes].concat()
}

/// A MEMX-TCP packet of every type, laid out by hand.
pub const TCP: [&[u8]; 17] = [
    b"\0\0\0",
    b"\x01\0\x01T",
    b"\x02\0\x01U",
    b"\x03\0\x08\x01\x02\x03\x04\x05\x06\x07\x08",
    b"\x04\0\0",
    b"\x05\0\x0c\0\0\0\0\0\0\x01\x02\0\0\x03\x04",
    b"\x06\0\x01A",
    b"\x07\0\x04\x05\x06\x07\x08",
    b"\x08\0\x10\0\0\0\0\0\0\0\x09\0\0\0\0\0\x0a\x0b\x0c",
    b"\x09\0\x01P",
    b"\x0a\0\x08\0\0\0\0\0\0\x0d\x0e",
    b"\x0b\0\x02HI",
    b"d\0\x0aPme:secret",
    b"e\0\x14\x11\x12\x13\x14\x15\x16\x17\x18\0\0\0\0\0\0\0\x19\0\0\0\x1a",
    b"f\0\x08\x21\x22\x23\x24\x25\x26\x27\x28",
    b"g\0\x10\x31\x32\x33\x34\x35\x36\x37\x38\0\0\0\0\0\0\0\0",
    b"h\0\x03HO!",
];

/// A Soup packet.
pub fn soup(kind: u8, payload: &[u8]) -> Vec<u8> {
    [&[kind], payload, b"\n"].concat()
}

/// A Soup login accepted packet with the number field as it is spelt.
pub fn soup_a(session: &str, number: &str) -> Vec<u8> {
    format!("A{session:>10}{number:>20}\n").into_bytes()
}

/// A Soup login request with the number field as it is spelt.
pub fn soup_l(user: &str, password: &str, session: &str, number: &str) -> Vec<u8> {
    format!("L{user:<6}{password:<10}{session:>10}{number:>20}\n").into_bytes()
}

/// The one way in which a Soup packet that is taken is written again: a space for each nought before
/// its number, up to the last digit.
pub fn spelling(packet: &[u8]) -> Vec<u8> {
    let mut spelling = packet.to_vec();
    let number = match packet[0] {
        b'A' => &mut spelling[11..30],
        b'L' => &mut spelling[27..46],
        _ => &mut [],
    };
    let padding = number.iter_mut().take_while(|byte| b" 0".contains(byte));
    padding.for_each(|byte| *byte = b' ');
    spelling
}

/// Users, and how a login with a blank password and session is refused for each (0: not at all).
pub const USERS: [(&str, u8); 9] = [
    ("", 6),
    ("u", 0),
    ("7", 0),
    ("sixsix", 0),
    (" u", 5),
    ("     u", 5),
    ("u u", 5),
    ("-", 5),
    ("\0", 5),
];

/// The number of a refusal, 0 if there is none.
pub fn number<T>(answer: Result<T, Refusal>) -> u8 {
    answer.map_or_else(Refusal::number, |_| 0)
}

const UNTOUCHED: u8 = 0xee;

/// More than any packet has.
const AMPLE: usize = 70_000;

/// What a writer gives with room for `room` bytes: what it wrote or its refusal's number. Bytes
/// past what was written, and on a refusal all of them, must be as before.
pub fn write_into(
    room: usize,
    write: impl FnOnce(&mut [u8]) -> Result<usize, Refusal>,
) -> Result<Vec<u8>, u8> {
    let mut slip = vec![UNTOUCHED; room];
    let written = write(&mut slip);
    let bytes = written.unwrap_or(0);
    assert!(
        slip[bytes..].iter().all(|&byte| byte == UNTOUCHED),
        "bytes that were not to be written have changed"
    );
    slip.truncate(bytes);
    written.map(|_| slip).map_err(Refusal::number)
}

/// As [`write_into`], with room enough for anything. The same again must be had with just the
/// room that it takes, and 9 with a byte less.
pub fn written(write: impl Fn(&mut [u8]) -> Result<usize, Refusal>) -> Result<Vec<u8>, u8> {
    let whole = write_into(AMPLE, &write);
    match &whole {
        Ok(bytes) => {
            assert_eq!(write_into(bytes.len(), &write), whole);
            assert_eq!(write_into(bytes.len() - 1, &write), Err(9));
            assert_eq!(write_into(0, &write), Err(9));
        }
        Err(_) => assert_eq!(write_into(0, &write), whole, "9 comes last"),
    }
    whole
}

/// What stands in an area where nothing was laid: no length that a slot could have.
pub const UNHELD: u8 = 0xdd;

/// An area in which nothing is held.
pub fn area() -> Vec<u8> {
    in_pieces([&[UNHELD; SLOT][..]; 32])
}

/// Puts pieces together: an emulator takes five times as long for a long copy, or a long fill, in one.
fn in_pieces<'a>(pieces: impl IntoIterator<Item = &'a [u8]>) -> Vec<u8> {
    let mut whole = Vec::with_capacity(AREA);
    for piece in pieces {
        whole.extend_from_slice(piece);
    }
    whole
}

/// A copy of an area.
pub fn copied(area: &[u8]) -> Vec<u8> {
    in_pieces(area.chunks(SLOT))
}

/// The slots of messages with these numbers.
pub fn held(numbers: &[u64]) -> Held {
    Held(
        numbers
            .iter()
            .fold(0, |bits, number| bits | 1 << (number % 32)),
    )
}

/// Takes a datagram with as much room as is never too little, as [`take_with`] does.
pub fn take_into(
    record: &mut Record,
    area: &mut [u8],
    datagram: &[u8],
) -> Result<(Vec<u8>, u64), u8> {
    take_with(ROOM, record, area, datagram)
}

/// Takes a datagram with so much room: what was delivered and how many messages that is, or the
/// refusal's number. Past what was delivered the tape must be as before, and so must everything be
/// on a refusal.
pub fn take_with(
    room: usize,
    record: &mut Record,
    area: &mut [u8],
    datagram: &[u8],
) -> Result<(Vec<u8>, u64), u8> {
    let (record_before, area_before) = (*record, copied(area));
    let untouched = [UNTOUCHED; SLOT];
    let mut tape = in_pieces(iter::repeat_n(&untouched[..], room.div_ceil(SLOT)));
    tape.truncate(room);
    let taken = record.take_in_place(area, datagram, &mut tape);
    let bytes = taken.map_or(0, |taken| taken.bytes);
    for rest in tape[bytes..].chunks(SLOT) {
        assert_eq!(*rest, untouched[..rest.len()], "past what was delivered");
    }
    tape.truncate(bytes);
    match taken {
        Ok(taken) => Ok((tape, taken.messages)),
        Err(refusal) => {
            assert_eq!(*record, record_before);
            assert!(area == area_before, "a refusal changed the area");
            Err(refusal.number())
        }
    }
}
