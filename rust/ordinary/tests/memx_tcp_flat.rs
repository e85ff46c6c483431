//! The flat face of MEMX-TCP: the fields that it gives and takes, and what it refuses in writing.

mod common;

use common::{tcp, TCP};
use ordinary::flat::{hp_tcp, hp_tcp_read, hp_tcp_reading, hp_tcp_write, hp_wrote};

fn kind(r#type: u8) -> hp_tcp {
    hp_tcp {
        r#type,
        ..hp_tcp::default()
    }
}

fn lettered(r#type: u8, letter: u8) -> hp_tcp {
    hp_tcp {
        letter,
        ..kind(r#type)
    }
}

/// The fields of the packets in [`TCP`].
fn fields() -> [hp_tcp; 17] {
    [
        kind(0),
        lettered(1, b'T'),
        lettered(2, b'U'),
        hp_tcp {
            session: 0x0102_0304_0506_0708,
            ..kind(3)
        },
        kind(4),
        hp_tcp {
            number: 0x0102,
            count: 0x0304,
            ..kind(5)
        },
        lettered(6, b'A'),
        hp_tcp {
            count: 0x0506_0708,
            ..kind(7)
        },
        hp_tcp {
            number: 9,
            top: 0x0a_0b0c,
            ..kind(8)
        },
        lettered(9, b'P'),
        hp_tcp {
            number: 0x0d0e,
            ..kind(10)
        },
        hp_tcp {
            start: 3,
            length: 2,
            ..kind(11)
        },
        hp_tcp {
            start: 4,
            length: 9,
            ..lettered(100, b'P')
        },
        hp_tcp {
            session: 0x1112_1314_1516_1718,
            number: 0x19,
            count: 0x1a,
            ..kind(101)
        },
        hp_tcp {
            session: 0x2122_2324_2526_2728,
            ..kind(102)
        },
        hp_tcp {
            session: 0x3132_3334_3536_3738,
            ..kind(103)
        },
        hp_tcp {
            start: 3,
            length: 3,
            ..kind(104)
        },
    ]
}

fn yes(packet: hp_tcp) -> hp_tcp_reading {
    hp_tcp_reading { refusal: 0, packet }
}

fn no(refusal: u64) -> hp_tcp_reading {
    hp_tcp_reading {
        refusal,
        packet: hp_tcp::default(),
    }
}

fn wrote(refusal: u64, bytes: usize) -> hp_wrote {
    hp_wrote {
        refusal,
        bytes: bytes as u64,
    }
}

#[test]
fn every_type_has_its_fields() {
    for (packet, fields) in TCP.into_iter().zip(fields()) {
        assert_eq!(hp_tcp_read(packet), yes(fields));
    }
}

#[test]
fn what_is_empty_still_begins_somewhere() {
    let at = |start, fields| yes(hp_tcp { start, ..fields });
    assert_eq!(hp_tcp_read(&tcp(11, b"")), at(3, kind(11)));
    assert_eq!(hp_tcp_read(&tcp(104, b"")), at(3, kind(104)));
    assert_eq!(hp_tcp_read(&tcp(100, b"P")), at(4, lettered(100, b'P')));
}

#[test]
fn a_refusal_has_no_fields() {
    assert_eq!(hp_tcp_read(b""), no(1));
    assert_eq!(hp_tcp_read(&[11; 65_539]), no(2));
    assert_eq!(hp_tcp_read(&tcp(12, b"HI")), no(3));
    assert_eq!(hp_tcp_read(b"\x0b\0\x03HI"), no(4));
    assert_eq!(hp_tcp_read(&tcp(1, b"P")), no(5));
    assert_eq!(hp_tcp_read(&tcp(101, &[0; 20])), no(6));
}

/// The token or the payload of a packet, where its fields say that one stands.
fn body<'a>(packet: &'a [u8], fields: &hp_tcp) -> &'a [u8] {
    &packet[fields.start as usize..][..fields.length as usize]
}

#[test]
fn writing_looks_at_no_field_that_the_type_lacks() {
    for (packet, fields) in TCP.into_iter().zip(fields()) {
        let has = |kinds: &[u8]| kinds.contains(&fields.r#type);
        let noise = hp_tcp {
            r#type: fields.r#type,
            letter: if has(&[1, 2, 6, 9, 100]) {
                fields.letter
            } else {
                b'?'
            },
            count: if has(&[5, 7, 101]) { fields.count } else { 77 },
            session: if has(&[3, 101, 102, 103]) {
                fields.session
            } else {
                78
            },
            number: if has(&[5, 8, 10, 101, 103]) {
                fields.number
            } else {
                79
            },
            top: if has(&[8]) { fields.top } else { 80 },
            start: 81,
            length: 82,
        };
        let length = packet.len();
        let body = body(packet, &fields);
        let mut out = [0xee; 100];
        assert_eq!(hp_tcp_write(noise, body, &mut out), wrote(0, length));
        assert_eq!(out[..length], *packet);
        assert_eq!(out[length..], [0xee; 100][length..]);
        let mut cramped = vec![0xee; length - 1];
        assert_eq!(hp_tcp_write(noise, body, &mut cramped), wrote(9, 0));
        assert_eq!(cramped, [0xee; 100][..length - 1]);
    }
}

/// The types without a body, and how many bytes they carry.
const BODILESS: [(u8, usize); 14] = [
    (0, 0),
    (1, 1),
    (2, 1),
    (3, 8),
    (4, 0),
    (5, 12),
    (6, 1),
    (7, 4),
    (8, 16),
    (9, 1),
    (10, 8),
    (101, 20),
    (102, 8),
    (103, 16),
];

#[test]
fn a_body_where_there_is_none_makes_the_packet_too_long() {
    let body = vec![0; 65_536];
    for (kind, carried) in BODILESS {
        // letters and numbers of 0, so that a reader would have a 5 or a 6 to give after the 4
        let fields = self::kind(kind);
        let most = 65_535 - carried;
        let mut out = [0xee; 100];
        for (length, refusal) in [(1, 4), (most, 4), (most + 1, 2)] {
            let written = hp_tcp_write(fields, &body[..length], &mut out);
            assert_eq!(written, wrote(refusal, 0), "{kind} {length}");
        }
        assert_eq!(out, [0xee; 100]);
    }
}

#[test]
fn an_unknown_type_is_3_unless_the_packet_is_too_long() {
    let body = vec![0; 65_536];
    for unknown in [12, 99, 105, u8::MAX] {
        let mut out = [0xee; 100];
        for (length, refusal) in [(0, 3), (1, 3), (65_535, 3), (65_536, 2)] {
            let written = hp_tcp_write(kind(unknown), &body[..length], &mut out);
            assert_eq!(written, wrote(refusal, 0), "{unknown} {length}");
        }
        assert_eq!(out, [0xee; 100]);
    }
}

#[test]
fn refusals_in_writing_come_in_order() {
    let body = vec![b'!'; 65_536];
    let blank = hp_tcp {
        count: 1,
        session: 1,
        top: 1,
        ..hp_tcp::default()
    };
    let of = |r#type| hp_tcp { r#type, ..blank };
    for (fields, length, refusal) in [
        (of(11), 65_536, 2),
        (of(11), 65_535, 9),
        (of(104), 65_536, 2),
        (of(104), 65_535, 9),
        (of(100), 65_535, 2),
        (of(100), 65_534, 4),
        (of(100), 256, 4),
        (of(100), 255, 5),
        (lettered(100, b'P'), 256, 4),
        (lettered(100, b'P'), 255, 9),
        (of(1), 0, 5),
        (of(2), 0, 5),
        (of(6), 0, 5),
        (of(9), 0, 5),
        (of(5), 0, 6),
        (of(8), 0, 6),
        (of(101), 0, 6),
        (of(103), 0, 9),
        (of(0), 0, 9),
    ] {
        let mut out = [0xee; 2];
        let written = hp_tcp_write(fields, &body[..length], &mut out);
        assert_eq!(written, wrote(refusal, 0), "{fields:?} {length}");
        assert_eq!(out, [0xee; 2]);
    }
}
