//! The flat face: the numbers it gives, what it hands back, and what a raw byte may not be.

mod common;

use common::{area, blocks, extended, memx, memx_data, soup_a, soup_l, ufo_e, ufo_numbered, ufo_s};
use ordinary::flat::*;

/// The answer of a reader that refuses.
fn no(refusal: u64) -> hp_read {
    hp_read {
        refusal,
        packet: hp_packet::default(),
    }
}

fn yes(packet: hp_packet) -> hp_read {
    hp_read { refusal: 0, packet }
}

fn kind(r#type: u8) -> hp_packet {
    hp_packet {
        r#type,
        ..hp_packet::default()
    }
}

fn wrote(refusal: u64, bytes: u64) -> hp_wrote {
    hp_wrote { refusal, bytes }
}

#[test]
fn soup_is_read() {
    for (packet, read) in [
        (
            b"+\n".to_vec(),
            hp_packet {
                start: 1,
                ..kind(b'+')
            },
        ),
        (
            b"Sabc\n".to_vec(),
            hp_packet {
                start: 1,
                length: 3,
                ..kind(b'S')
            },
        ),
        (
            b"U \n".to_vec(),
            hp_packet {
                start: 1,
                length: 1,
                ..kind(b'U')
            },
        ),
        (b"H\n".to_vec(), kind(b'H')),
        (b"Z\n".to_vec(), kind(b'Z')),
        (b"R\n".to_vec(), kind(b'R')),
        (b"O\n".to_vec(), kind(b'O')),
        (
            b"JS\n".to_vec(),
            hp_packet {
                reason: b'S',
                ..kind(b'J')
            },
        ),
        (
            soup_a("8841", "42"),
            hp_packet {
                name: *b"      8841",
                number: 42,
                ..kind(b'A')
            },
        ),
        (
            soup_l("me", "secret", "8841", "0"),
            hp_packet {
                user: *b"me    ",
                password: *b"secret    ",
                name: *b"      8841",
                ..kind(b'L')
            },
        ),
    ] {
        assert_eq!(hp_soup_read(&packet), yes(read), "{packet:?}");
    }
    assert_eq!(hp_soup_read(b""), no(1));
    assert_eq!(hp_soup_read(b"J\n\n"), no(8));
    assert_eq!(hp_soup_read(&soup_a("", "42")), no(6));
    assert_eq!(hp_soup_read(&soup_l("", "secret", "8841", "42")), no(6));
}

#[test]
fn ufo_is_read() {
    let accept = b"A8841      \0\0\x01\0";
    for (packet, read) in [
        (
            accept.to_vec(),
            hp_packet {
                name: *b"8841      ",
                number: 256,
                ..kind(b'A')
            },
        ),
        (
            b"JA".to_vec(),
            hp_packet {
                reason: b'A',
                ..kind(b'J')
            },
        ),
        (
            ufo_s(6, &[b"HI", b""]),
            hp_packet {
                number: 6,
                count: 2,
                start: 7,
                length: 6,
                ..kind(b'S')
            },
        ),
        (
            ufo_s(6, &[]),
            hp_packet {
                number: 6,
                start: 7,
                ..kind(b'S')
            },
        ),
        (
            ufo_e(9),
            hp_packet {
                number: 9,
                ..kind(b'E')
            },
        ),
    ] {
        assert_eq!(hp_ufo_read_down(&packet), yes(read), "{packet:?}");
    }
    assert_eq!(hp_ufo_read_down(&[b'S'; 1473]), no(2));
    assert_eq!(hp_ufo_read_down(&ufo_s(u32::MAX, &[b""])), no(7));
}

#[test]
fn upstream_is_read() {
    let packet = blocks(&[
        b"Luser1 password  8841      ",
        b"T\0\0\0\x03\0\x02",
        b"Uabc",
        b"R",
        b"O",
    ]);
    let whole = hp_packet {
        count: 5,
        ..hp_packet::default()
    };
    assert_eq!(hp_ufo_read_up(&packet), yes(whole));
    for (place, read) in [
        (
            0,
            hp_packet {
                user: *b"user1 ",
                password: *b"password  ",
                name: *b"8841      ",
                next: 29,
                ..kind(b'L')
            },
        ),
        (
            29,
            hp_packet {
                number: 3,
                count: 2,
                next: 38,
                ..kind(b'T')
            },
        ),
        (
            38,
            hp_packet {
                start: 41,
                length: 3,
                next: 44,
                ..kind(b'U')
            },
        ),
        (
            44,
            hp_packet {
                next: 47,
                ..kind(b'R')
            },
        ),
        (
            47,
            hp_packet {
                next: 50,
                ..kind(b'O')
            },
        ),
    ] {
        assert_eq!(hp_ufo_read_message(&packet, place), yes(read), "{place}");
    }
    for place in [1, 43, 49, 50, 51, u64::MAX] {
        assert_eq!(hp_ufo_read_message(&packet, place), no(4), "{place}");
    }
}

#[test]
fn a_message_is_read_only_from_a_packet_that_is_read() {
    assert_eq!(hp_ufo_read_message(b"\0\x04U\0\x01R", 3), no(4));
    for (packet, refusal) in [
        (b"".to_vec(), 1),
        (vec![0; 1473], 2),
        (blocks(&[b"R", b"X"]), 3),
        (b"\0\x01R\0".to_vec(), 4),
        (blocks(&[b"R", b"T\0\0\0\0\0\x01"]), 6),
        (blocks(&[b"R", b"L      password  8841      "]), 6),
    ] {
        assert_eq!(hp_ufo_read_up(&packet), no(refusal));
        assert_eq!(hp_ufo_read_message(&packet, 0), no(refusal));
    }
}

#[test]
fn memx_is_read() {
    for (packet, read) in [
        (
            memx(0, 7, 5),
            hp_packet {
                session: 7,
                number: 5,
                ..kind(0)
            },
        ),
        (
            memx(1, 7, 0),
            hp_packet {
                session: 7,
                ..kind(1)
            },
        ),
        (
            memx_data(7, 5, &[b"a", b"bc"]),
            hp_packet {
                session: 7,
                number: 5,
                count: 2,
                start: 20,
                length: 7,
                ..kind(2)
            },
        ),
        (
            extended(&memx(0, 7, 5), b"!"),
            hp_packet {
                session: 7,
                number: 5,
                extra: 1,
                ..kind(0)
            },
        ),
        (
            extended(&memx(1, 7, 0), &[0xff; 237]),
            hp_packet {
                session: 7,
                extra: 237,
                ..kind(1)
            },
        ),
        (
            extended(&memx_data(7, 5, &[b"a", b"bc"]), b"\0\x01"),
            hp_packet {
                session: 7,
                number: 5,
                count: 2,
                start: 22,
                length: 7,
                extra: 2,
                ..kind(2)
            },
        ),
        (
            extended(&memx_data(7, 5, &[b""]), &[0; 237]),
            hp_packet {
                session: 7,
                number: 5,
                count: 1,
                start: 257,
                length: 2,
                extra: 237,
                ..kind(2)
            },
        ),
    ] {
        assert_eq!(hp_memx_read(&packet), yes(read), "{packet:?}");
    }
    let longest = hp_packet {
        session: 7,
        number: 5,
        count: 1,
        start: 257,
        length: 8715,
        extra: 237,
        ..kind(2)
    };
    let packet = |length| extended(&memx_data(7, 5, &[&vec![0; length]]), &[0; 237]);
    assert_eq!(hp_memx_read(&packet(8713)), yes(longest));
    assert_eq!(hp_memx_read(&packet(8714)), no(2));
    assert_eq!(hp_memx_read(b"\x02"), no(4));
    assert_eq!(hp_memx_read(b"\x03"), no(3));
    let mut short = extended(&memx_data(7, 0, &[]), b"!");
    assert_eq!(hp_memx_read(&short), no(6));
    short[1] = 17;
    assert_eq!(hp_memx_read(&short), no(5));
}

#[test]
fn blocks_are_found() {
    let bytes = b"\0\x02HI\0\0";
    let block = |start, length, next| hp_block {
        refusal: 0,
        start,
        length,
        next,
    };
    assert_eq!(hp_next_block(bytes, 0), block(2, 2, 4));
    assert_eq!(hp_next_block(bytes, 4), block(6, 0, 6));
    let refused = hp_block {
        refusal: 4,
        ..hp_block::default()
    };
    for place in [1, 5, 6, 7, u64::MAX] {
        assert_eq!(hp_next_block(bytes, place), refused, "{place}");
    }
    assert_eq!(hp_next_block(b"", 0), refused);
    let longest = [&[0xff; 2][..], &[0; 65_535]].concat();
    assert_eq!(hp_next_block(&longest, 0), block(2, 65_535, 65_537));
}

type Writer = fn(hp_packet, &[u8], &mut [u8]) -> hp_wrote;

/// Writes a MEMX-UDP packet without extra bytes.
fn memx_write(fields: hp_packet, body: &[u8], out: &mut [u8]) -> hp_wrote {
    hp_memx_write(fields, b"", body, out)
}

/// Writes a MEMX-UDP packet with three extra bytes.
fn longer_memx_write(fields: hp_packet, body: &[u8], out: &mut [u8]) -> hp_wrote {
    hp_memx_write(fields, b"\0\x01!", body, out)
}

/// Types without a body, and how many bytes their packets have.
type Bodiless<'a> = &'a [(hp_packet, usize)];

#[test]
fn a_body_where_there_is_none_makes_the_packet_too_long() {
    let soup = [
        (kind(b'H'), 2),
        (kind(b'Z'), 2),
        (kind(b'R'), 2),
        (kind(b'O'), 2),
        (kind(b'J'), 3),
        (kind(b'A'), 32),
        (kind(b'L'), 48),
    ];
    let down = [(kind(b'A'), 15), (kind(b'J'), 2), (kind(b'E'), 5)];
    let up = [
        (kind(b'L'), 29),
        (kind(b'T'), 9),
        (kind(b'R'), 3),
        (kind(b'O'), 3),
    ];
    let memx_udp = [(kind(0), 18), (kind(1), 18)];
    let longer = [(kind(0), 21), (kind(1), 21)];
    let writers: [(Writer, usize, Bodiless); 5] = [
        (hp_soup_write, 4098, &soup),
        (hp_ufo_write_down, 1472, &down),
        (hp_ufo_write_message, 1472, &up),
        (memx_write, 8972, &memx_udp),
        (longer_memx_write, 8972, &longer),
    ];
    for (write, limit, types) in writers {
        for &(fields, fixed) in types {
            // linefeeds, so that a Soup reader would have an 8 to give after the 4
            let body = vec![b'\n'; limit + 1 - fixed];
            let mut out = [0xee; 5000];
            assert_eq!(write(fields, &body[..1], &mut out), wrote(4, 0));
            let most = write(fields, &body[..limit - fixed], &mut out);
            assert_eq!(most, wrote(4, 0), "{fields:?}");
            assert_eq!(write(fields, &body, &mut out), wrote(2, 0), "{fields:?}");
            assert_eq!(out, [0xee; 5000]);
        }
    }
}

#[test]
fn an_unknown_type_is_3_unless_the_packet_is_too_long() {
    let writers: [(Writer, u8, usize); 5] = [
        (hp_soup_write, b'X', 4098 - 2),
        (hp_ufo_write_down, b'T', 1472 - 1),
        (hp_ufo_write_message, b'S', 1472 - 3),
        (memx_write, 3, 8972 - 18),
        (longer_memx_write, 3, 8972 - 21),
    ];
    for (write, unknown, room) in writers {
        let body = vec![0; room + 1];
        let mut out = [0xee; 5000];
        assert_eq!(write(kind(unknown), b"", &mut out), wrote(3, 0));
        assert_eq!(write(kind(unknown), &body[..room], &mut out), wrote(3, 0));
        assert_eq!(write(kind(unknown), &body, &mut out), wrote(2, 0));
        assert_eq!(out, [0xee; 5000]);
    }
}

#[test]
fn extra_bytes_are_refused_in_their_turn() {
    let extra = [0xff; 8956];
    // a type, so many extra bytes, so many bytes of body, and the refusal; the count is 0
    for (r#type, extras, body, refusal) in [
        (0, 237, 0, 9),
        (0, 238, 0, 5),
        (0, 237, 1, 4),
        (0, 238, 1, 5),
        (1, 238, 8972 - 18 - 238, 5),
        (1, 238, 8973 - 18 - 238, 2),
        (1, 237, 8972 - 18 - 237, 4),
        (1, 237, 8973 - 18 - 237, 2),
        (1, 8954, 0, 5),
        (1, 8955, 0, 2),
        (2, 237, 0, 6),
        (2, 238, 0, 5),
        (2, 237, 1, 4),
        (2, 238, 1, 5),
        (2, 238, 8972 - 20 - 238, 5),
        (2, 238, 8973 - 20 - 238, 2),
        (2, 8952, 0, 5),
        (2, 8953, 0, 2),
        (3, 237, 0, 3),
        (3, 238, 0, 3),
        (3, 256, 1, 3),
        (3, 8954, 0, 3),
        (3, 8955, 0, 2),
        (3, 238, 8972 - 18 - 238, 3),
        (255, 238, 8973 - 18 - 238, 2),
    ] {
        let answer = hp_memx_write(kind(r#type), &extra[..extras], &vec![0; body], &mut []);
        assert_eq!(answer, wrote(refusal, 0), "{} {extras} {body}", r#type);
    }
}

#[test]
fn what_is_read_with_extra_bytes_is_written_again() {
    for packet in [memx(0, 7, 5), memx(1, 7, 0), memx_data(7, 5, &[b"a", b""])] {
        for extras in 0..=237 {
            let packet = extended(&packet, &[0x12; 237][..extras]);
            let hp_read {
                refusal,
                packet: read,
            } = hp_memx_read(&packet);
            assert_eq!((refusal, usize::from(read.extra)), (0, extras));
            let body = &packet[read.start as usize..][..read.length as usize];
            // how many there are is the slice's word, not the field's
            let fields = hp_packet {
                extra: !read.extra,
                ..read
            };
            let mut out = vec![0xee; packet.len() + 1];
            let length = packet.len() as u64;
            let again = hp_memx_write(fields, &packet[18..18 + extras], body, &mut out);
            assert_eq!(again, wrote(0, length));
            assert_eq!(out, [&packet[..], &[0xee]].concat());
        }
    }
}

#[test]
fn writing_ignores_fields_that_the_type_lacks() {
    let noise = hp_packet {
        r#type: 0,
        reason: b'A',
        count: 1,
        user: *b"user1 ",
        password: *b"password  ",
        name: *b"8841      ",
        session: 7,
        number: 3,
        start: 99,
        length: 98,
        next: 97,
        extra: 96,
    };
    let of = |r#type| hp_packet { r#type, ..noise };
    let body = b"\0\x01!";
    let cases: [(Writer, u8, &[u8], &[u8]); 20] = [
        (hp_soup_write, b'+', b"hi", b"+hi\n"),
        (hp_soup_write, b'S', b"hi", b"Shi\n"),
        (hp_soup_write, b'U', b"hi", b"Uhi\n"),
        (hp_soup_write, b'H', b"", b"H\n"),
        (hp_soup_write, b'Z', b"", b"Z\n"),
        (hp_soup_write, b'R', b"", b"R\n"),
        (hp_soup_write, b'O', b"", b"O\n"),
        (hp_soup_write, b'J', b"", b"JA\n"),
        (hp_ufo_write_down, b'A', b"", b"A8841      \0\0\0\x03"),
        (hp_ufo_write_down, b'J', b"", b"JA"),
        (hp_ufo_write_down, b'S', body, b"S\0\0\0\x03\0\x01\0\x01!"),
        (hp_ufo_write_down, b'E', b"", b"E\0\0\0\x03"),
        (
            hp_ufo_write_message,
            b'L',
            b"",
            b"\0\x1bLuser1 password  8841      ",
        ),
        (hp_ufo_write_message, b'T', b"", b"\0\x07T\0\0\0\x03\0\x01"),
        (hp_ufo_write_message, b'U', b"hi", b"\0\x03Uhi"),
        (hp_ufo_write_message, b'R', b"", b"\0\x01R"),
        (memx_write, 0, b"", &memx(0, 7, 3)),
        (memx_write, 2, body, &memx_data(7, 3, &[b"!"])),
        (
            longer_memx_write,
            1,
            b"",
            &extended(&memx(1, 7, 3), b"\0\x01!"),
        ),
        (
            longer_memx_write,
            2,
            body,
            &extended(&memx_data(7, 3, &[b"!"]), b"\0\x01!"),
        ),
    ];
    for (write, kind, body, packet) in cases {
        let mut out = [0xee; 100];
        let length = packet.len();
        assert_eq!(write(of(kind), body, &mut out), wrote(0, length as u64));
        assert_eq!(out[..length], *packet);
        assert_eq!(out[length..], [0xee; 100][length..]);
        let mut cramped = vec![0xee; length - 1];
        assert_eq!(write(of(kind), body, &mut cramped), wrote(9, 0));
        assert_eq!(cramped, [0xee; 100][..length - 1]);
    }
    let left = hp_packet {
        name: *b"      8841",
        ..noise
    };
    let login = hp_packet {
        r#type: b'L',
        ..left
    };
    let mut out = [0; 48];
    assert_eq!(hp_soup_write(login, b"", &mut out), wrote(0, 48));
    assert_eq!(out, *soup_l("user1", "password", "8841", "3"));
}

#[test]
fn a_number_that_its_field_cannot_hold_is_7_in_its_turn() {
    let wide = |r#type, name: &[u8; 10], count| hp_packet {
        r#type,
        name: *name,
        count,
        number: 1 << 32,
        ..hp_packet::default()
    };
    let name = b"8841      ";
    let cases: [(Writer, hp_packet, &[u8], u64); 9] = [
        (hp_ufo_write_down, wide(b'A', name, 0), b"", 7),
        (hp_ufo_write_down, wide(b'A', b" 8841     ", 0), b"", 5),
        (hp_ufo_write_down, wide(b'A', b"          ", 0), b"", 6),
        (hp_ufo_write_down, wide(b'A', name, 0), b"x", 4),
        (hp_ufo_write_down, wide(b'S', name, 0), b"", 7),
        (hp_ufo_write_down, wide(b'S', name, 1), b"", 4),
        (hp_ufo_write_down, wide(b'E', name, 0), b"", 7),
        (hp_ufo_write_message, wide(b'T', name, 1), b"", 7),
        (hp_ufo_write_message, wide(b'T', name, 0), b"", 6),
    ];
    for (write, fields, body, refusal) in cases {
        assert_eq!(
            write(fields, body, &mut []),
            wrote(refusal, 0),
            "{fields:?}"
        );
    }
}

/// A login that names no user, for this session.
fn nameless(name: &[u8; 10]) -> hp_packet {
    hp_packet {
        user: *b"      ",
        password: *b"secret    ",
        name: *name,
        ..kind(b'L')
    }
}

#[test]
fn a_nameless_login_is_6_in_its_turn() {
    let (left, right) = (nameless(b"      8841"), nameless(b"8841      "));
    let cases: [(Writer, hp_packet, usize, u64); 8] = [
        (hp_soup_write, left, 4051, 2),
        (hp_soup_write, left, 4050, 4),
        (hp_soup_write, right, 0, 5),
        (hp_soup_write, left, 0, 6),
        (hp_ufo_write_message, right, 1444, 2),
        (hp_ufo_write_message, right, 1443, 4),
        (hp_ufo_write_message, left, 0, 5),
        (hp_ufo_write_message, right, 0, 6),
    ];
    for (write, fields, body, refusal) in cases {
        for room in [0, 28, 47, 100] {
            let mut out = vec![0xee; room];
            let answer = write(fields, &vec![b'!'; body], &mut out);
            assert_eq!(answer, wrote(refusal, 0), "{fields:?}, room {room}");
            assert_eq!(out, vec![0xee; room]);
        }
    }
}

/// Adds a message behind the output's first `used` bytes, which must all be as before on a refusal.
fn add(fields: hp_packet, body: &[u8], out: &mut [u8], used: u64) -> hp_wrote {
    let before = out.to_vec();
    let wrote = hp_ufo_add_message(fields, body, out, used);
    if wrote.refusal != 0 {
        assert_eq!(out, before);
    }
    wrote
}

#[test]
fn a_message_is_added_behind_the_others() {
    let request = hp_packet {
        number: 3,
        count: 2,
        ..kind(b'T')
    };
    let mut out = [0xee; 20];
    assert_eq!(add(request, b"", &mut out, 0), wrote(0, 9));
    assert_eq!(add(kind(b'U'), b"hi", &mut out, 9), wrote(0, 14));
    assert_eq!(add(kind(b'R'), b"", &mut out[..16], 14), wrote(9, 0));
    assert_eq!(add(kind(b'R'), b"", &mut out[..17], 14), wrote(0, 17));
    assert_eq!(out[..17], *b"\0\x07T\0\0\0\x03\0\x02\0\x03Uhi\0\x01R");
    assert_eq!(out[17..], [0xee; 3]);
}

#[test]
fn what_adding_refuses_comes_in_order() {
    let mut full = blocks(&[&[b'U'; 1400]]); // of 1,402 bytes
    full.resize(3000, 0xee);
    let mut unlawful = blocks(&[b"X"]);
    unlawful.resize(3000, 0xee);
    let wide = hp_packet {
        number: 1 << 32,
        count: 1,
        ..kind(b'T')
    };
    let nought = hp_packet { count: 0, ..wide };
    for (fields, body, refusal) in [
        (kind(b'X'), 67, 3),
        (kind(b'X'), 68, 2),
        (kind(b'X'), 70_000, 2),
        (kind(b'R'), 1, 4),
        (kind(b'R'), 67, 4),
        (kind(b'R'), 68, 2),
        (kind(b'L'), 41, 4),
        (kind(b'L'), 42, 2),
        (kind(b'L'), 0, 5),
        (wide, 61, 4),
        (wide, 62, 2),
        (nameless(b"8841      "), 41, 4),
        (nameless(b"      8841"), 0, 5),
        (nameless(b"8841      "), 0, 6),
        (nought, 0, 6),
        (wide, 0, 7),
        (kind(b'U'), 68, 2),
    ] {
        let body = vec![b'!'; body];
        let added = |out: &mut [u8], used| add(fields, &body, out, used);
        assert_eq!(added(&mut full, 1402), wrote(refusal, 0), "{fields:?}");
        assert_eq!(added(&mut full[..1402], 1402), wrote(refusal, 0));
        assert_eq!(added(&mut full, 1401), wrote(4, 0), "what is there");
        assert_eq!(added(&mut unlawful, 3), wrote(3, 0), "what is there");
        assert_eq!(added(&mut unlawful, 3001), wrote(4, 0), "past the end");
        assert_eq!(added(&mut unlawful, u64::MAX), wrote(4, 0));
        assert_eq!(added(&mut full, 3000), wrote(2, 0), "what is there");
    }
    assert_eq!(add(kind(b'U'), &[0; 67], &mut full, 1402), wrote(0, 1472));
}

const RECORD: hp_record = hp_record {
    style: 1,
    ended: 0,
    name: *b"8841      ",
    session: 1234,
    next: 3,
    top: 5,
    asked: 0,
    held: 0,
};

const BROADCAST: hp_record = hp_record {
    style: 2,
    name: *b"\0not text\n",
    ..RECORD
};

#[test]
fn opening() {
    let fresh = hp_record {
        style: 1,
        name: *b"8841      ",
        next: 1,
        ..hp_record::default()
    };
    let opened = |refusal, record| hp_opened { refusal, record };
    assert_eq!(hp_open_ufo(b"8841      "), opened(0, fresh));
    assert_eq!(hp_open_ufo(b" 8841     "), opened(5, hp_record::default()));
    assert_eq!(hp_open_ufo(b"          "), opened(6, hp_record::default()));
    let fresh = hp_record {
        style: 2,
        session: u64::MAX,
        next: 1,
        ..hp_record::default()
    };
    assert_eq!(hp_open_memx(u64::MAX), opened(0, fresh));
}

#[test]
fn taking_keeps_what_the_style_does_not_look_at() {
    let mut out = [0xee; 100];
    let taken = hp_take(RECORD, &mut area(), &ufo_numbered(2, 3), &mut out);
    let delivered = common::numbered(3, 2);
    let after = hp_taken {
        refusal: 0,
        bytes: delivered.len() as u64,
        messages: 2,
        record: hp_record { next: 5, ..RECORD },
    };
    assert_eq!(taken, after);
    assert_eq!(out[..delivered.len()], delivered);
    assert_eq!(out[delivered.len()..], [0xee; 100][delivered.len()..]);

    let datagram = memx_data(1234, 2, &[b"two", b"three", b"four"]);
    let datagram = extended(&datagram, b"\0\x01\0\0");
    let mut out = [0xee; 100];
    let taken = hp_take(BROADCAST, &mut area(), &datagram, &mut out);
    let delivered = blocks(&[b"three", b"four"]);
    let after = hp_taken {
        refusal: 0,
        bytes: delivered.len() as u64,
        messages: 2,
        record: hp_record {
            next: 5,
            ..BROADCAST
        },
    };
    assert_eq!(taken, after);
    assert_eq!(out[..delivered.len()], delivered);
    assert_eq!(out[delivered.len()..], [0xee; 100][delivered.len()..]);

    let taken = hp_take(BROADCAST, &mut area(), &memx(1, 1234, 9), &mut []);
    let after = hp_taken {
        record: hp_record {
            top: 9,
            ended: 1,
            ..BROADCAST
        },
        ..hp_taken::default()
    };
    assert_eq!(taken, after);
}

#[test]
fn taking_hands_the_record_back_on_a_refusal() {
    let ended = hp_record { ended: 1, ..RECORD };
    for (record, datagram, refusal) in [
        (hp_record { style: 0, ..RECORD }, ufo_e(5), 10),
        (hp_record { style: 3, ..RECORD }, ufo_e(5), 10),
        (hp_record { ended: 2, ..RECORD }, vec![], 10),
        (
            hp_record {
                name: *b"          ",
                ..RECORD
            },
            vec![],
            10,
        ),
        (hp_record { next: 7, ..RECORD }, vec![], 10),
        (hp_record::default(), vec![], 10),
        (RECORD, vec![], 1),
        (RECORD, b"JA".to_vec(), 16),
        (BROADCAST, memx(0, 1, 1), 11),
        (BROADCAST, extended(&memx(0, 1, 1), b"!"), 11),
        (BROADCAST, [&memx(0, 1234, 1)[..], b"!"].concat(), 4),
        (BROADCAST, ufo_e(5), 3),
        (ended, ufo_e(6), 12),
        (ended, ufo_numbered(3, 1), 9),
    ] {
        let (mut lent, mut out) = (area(), [0xee; 8]);
        let taken = hp_take(record, &mut lent, &datagram, &mut out);
        let refused = hp_taken {
            refusal,
            record,
            ..hp_taken::default()
        };
        assert_eq!(taken, refused);
        assert_eq!((lent, out), (area(), [0xee; 8]));
    }
}

#[test]
fn standing() {
    let lacking = hp_standing {
        missing: 1,
        first: 3,
        last: 5,
        ..hp_standing::default()
    };
    assert_eq!(hp_standing_of(RECORD), lacking);
    assert_eq!(hp_standing_of(BROADCAST), lacking);
    let had = hp_record { next: 6, ..RECORD };
    assert_eq!(hp_standing_of(had), hp_standing::default());
    let complete = hp_standing {
        complete: 1,
        ..hp_standing::default()
    };
    assert_eq!(hp_standing_of(hp_record { ended: 1, ..had }), complete);
    let broken = hp_standing {
        refusal: 10,
        ..hp_standing::default()
    };
    for record in [
        hp_record { ended: 255, ..had },
        hp_record { style: 9, ..had },
        hp_record { asked: 7, ..had },
    ] {
        assert_eq!(hp_standing_of(record), broken);
    }
}

const SHEET: hp_sheet = hp_sheet {
    mean: 100.0,
    spread: 50.0,
    timed: 1,
};

const NEVER: hp_patience = hp_patience {
    rule: 0,
    first: f64::NAN,
    second: f64::NAN,
};

const FIXED: hp_patience = hp_patience {
    rule: 1,
    first: 250.0,
    second: f64::NAN,
};

const MEASURED: hp_patience = hp_patience {
    rule: 2,
    first: 1.0,
    second: 60_000.0,
};

const NO_RULE: hp_patience = hp_patience {
    rule: 3,
    ..MEASURED
};

#[test]
fn asking() {
    let answer = |what, record| hp_asked {
        what,
        record,
        ..hp_asked::default()
    };
    let asked = hp_record { asked: 3, ..RECORD };
    let request = hp_asked {
        first: 3,
        count: 3,
        ..answer(2, asked)
    };
    assert_eq!(hp_ask(RECORD, SHEET, NEVER, 0.0), request);
    assert_eq!(hp_ask(asked, SHEET, NEVER, 9e6), answer(1, asked));
    assert_eq!(hp_ask(asked, SHEET, FIXED, 249.0), answer(1, asked));
    assert_eq!(hp_ask(asked, SHEET, FIXED, 250.0), request);
    assert_eq!(hp_ask(asked, SHEET, MEASURED, 299.0), answer(1, asked));
    assert_eq!(hp_ask(asked, SHEET, MEASURED, 300.0), request);
    let had = hp_record { next: 6, ..RECORD };
    assert_eq!(hp_ask(had, SHEET, FIXED, 250.0), answer(0, had));
    let broadcast = hp_ask(BROADCAST, SHEET, NEVER, 0.0);
    assert_eq!(broadcast.record.name, BROADCAST.name);
    assert_eq!((broadcast.what, broadcast.record.asked), (2, 3));
}

#[test]
fn asking_refuses_10_before_15() {
    let broken_record = hp_record { next: 0, ..RECORD };
    let broken_flag = hp_record { ended: 2, ..RECORD };
    let broken_sheet = hp_sheet {
        mean: f64::NAN,
        ..SHEET
    };
    let broken_timed = hp_sheet { timed: 2, ..SHEET };
    for (record, sheet, patience, elapsed, refusal) in [
        (broken_record, SHEET, NEVER, 0.0, 10),
        (broken_record, SHEET, NO_RULE, -1.0, 10),
        (broken_flag, SHEET, NO_RULE, 0.0, 10),
        (RECORD, broken_sheet, NEVER, 0.0, 10),
        (RECORD, broken_sheet, NO_RULE, f64::NAN, 10),
        (RECORD, broken_timed, NO_RULE, 0.0, 10),
        (RECORD, SHEET, NO_RULE, 0.0, 15),
        (RECORD, SHEET, hp_patience { rule: 255, ..FIXED }, 0.0, 15),
        (
            RECORD,
            SHEET,
            hp_patience {
                first: 0.0,
                ..FIXED
            },
            0.0,
            15,
        ),
        (RECORD, SHEET, NEVER, f64::NAN, 15),
        (RECORD, SHEET, NEVER, -0.5, 15),
    ] {
        let refused = hp_asked {
            refusal,
            record,
            ..hp_asked::default()
        };
        assert_eq!(hp_ask(record, sheet, patience, elapsed), refused);
    }
}

#[test]
fn timing_and_waiting() {
    let timed = hp_time(SHEET, 60.0);
    let sheet = hp_sheet {
        mean: 95.0,
        spread: 47.5,
        timed: 1,
    };
    assert_eq!(timed, hp_timed { refusal: 0, sheet });
    let untimed = hp_sheet {
        mean: f64::NAN,
        spread: -1.0,
        timed: 0,
    };
    let first = hp_sheet {
        mean: 8.0,
        spread: 4.0,
        timed: 1,
    };
    assert_eq!(hp_time(untimed, 8.0).sheet, first);

    let payload = f64::from_bits(0x7ff8_0000_0000_1234);
    for (sheet, sample, refusal) in [
        (hp_sheet { timed: 2, ..SHEET }, 8.0, 10),
        (
            hp_sheet {
                mean: payload,
                ..SHEET
            },
            f64::NAN,
            10,
        ),
        (
            hp_sheet {
                spread: -1.0,
                ..SHEET
            },
            8.0,
            10,
        ),
        (SHEET, -1.0, 15),
        (SHEET, f64::NAN, 15),
        (untimed, 60_001.0, 15),
    ] {
        assert_eq!(hp_time(sheet, sample), hp_timed { refusal, sheet });
        let wait = hp_wait_of(sheet, NO_RULE);
        let refused = hp_wait {
            refusal: if refusal == 10 { 10 } else { 15 },
            ..hp_wait::default()
        };
        assert_eq!(wait, refused);
    }

    let wait = |milliseconds| hp_wait {
        refusal: 0,
        waits: 1,
        milliseconds,
    };
    assert_eq!(hp_wait_of(SHEET, NEVER), hp_wait::default());
    assert_eq!(hp_wait_of(SHEET, FIXED), wait(250.0));
    assert_eq!(hp_wait_of(SHEET, MEASURED), wait(300.0));
    assert_eq!(hp_wait_of(untimed, MEASURED), wait(1000.0));
}

#[test]
fn sheets_rules_and_waits_are_compared_bit_for_bit() {
    let nought = hp_sheet { mean: 0.0, ..SHEET };
    let negative = hp_sheet {
        mean: -0.0,
        ..SHEET
    };
    assert_ne!(nought, negative);
    let unlike = hp_sheet {
        spread: f64::NAN,
        ..SHEET
    };
    assert_eq!(unlike, unlike);
    assert_eq!(NEVER, NEVER);
    assert_ne!(
        NEVER,
        hp_patience {
            second: 1.0,
            ..NEVER
        }
    );
    let wait = hp_wait {
        milliseconds: -0.0,
        ..hp_wait::default()
    };
    assert_ne!(wait, hp_wait::default());
}

#[test]
fn silence() {
    let answer = |refusal, yes| hp_yes { refusal, yes };
    assert_eq!(hp_line_lost(10_000, 0), answer(0, 0));
    assert_eq!(hp_line_lost(10_001, 0), answer(0, 1));
    assert_eq!(hp_line_lost(0, 1), answer(14, 0));
    assert_eq!(hp_heartbeat_due(1000, 0), answer(0, 0));
    assert_eq!(hp_heartbeat_due(1001, 0), answer(0, 1));
    assert_eq!(hp_heartbeat_due(0, 1), answer(14, 0));
}

#[test]
fn lending() {
    let mut bytes = [0xee; 16];
    let empty = hp_log::default();
    let added = hp_log_add(empty, &mut bytes, b"HI");
    let one = hp_log {
        count: 1,
        used: 4,
        ended: 0,
    };
    assert_eq!(
        added,
        hp_logged {
            refusal: 0,
            log: one
        }
    );
    assert_eq!(bytes[..5], *b"\0\x02HI\xee");

    let ended = hp_log { ended: 1, ..one };
    let declared = hp_log_declare_end(one, &bytes);
    assert_eq!(
        declared,
        hp_logged {
            refusal: 0,
            log: ended
        }
    );

    let mut out = [0xee; 1472];
    assert_eq!(hp_log_answer(one, &bytes, 1, 9, &mut out), wrote(0, 11));
    assert_eq!(out[..11], ufo_s(1, &[b"HI"]));
    assert_eq!(out[11..], [0xee; 1472][11..]);
    assert_eq!(hp_log_answer(one, &bytes, 2, 9, &mut out), wrote(0, 7));
    assert_eq!(out[..7], ufo_s(2, &[]));
    assert_eq!(hp_log_answer(ended, &bytes, 2, 9, &mut out), wrote(0, 5));
    assert_eq!(out[..5], ufo_e(1));
    assert_eq!(hp_log_heartbeat(ended, &bytes, &mut out), wrote(0, 7));
    assert_eq!(out[..7], ufo_s(2, &[]));
    assert_eq!(hp_log_end_packet(ended, &bytes, &mut out), wrote(0, 5));
    assert_eq!(out[..5], ufo_e(1));

    let answer = |log, first, count, out: &mut [u8]| hp_log_answer(log, &bytes, first, count, out);
    assert_eq!(answer(one, 0, 1, &mut []), wrote(6, 0));
    assert_eq!(answer(one, 1, 0, &mut []), wrote(6, 0));
    assert_eq!(answer(one, 1, 1, &mut [0; 1471]), wrote(9, 0));
    assert_eq!(hp_log_heartbeat(one, &bytes, &mut [0; 6]), wrote(9, 0));
    assert_eq!(hp_log_end_packet(one, &bytes, &mut []), wrote(12, 0));
    assert_eq!(hp_log_end_packet(ended, &bytes, &mut [0; 4]), wrote(9, 0));
}

#[test]
fn a_log_is_handed_back_on_a_refusal() {
    let one = hp_log {
        count: 1,
        used: 4,
        ended: 0,
    };
    let lent = *b"\0\x02HI....";
    for (log, message, refusal) in [
        (hp_log { ended: 2, ..one }, &b""[..], 10),
        (hp_log { used: 5, ..one }, b"", 10),
        (
            hp_log {
                used: u64::MAX,
                ..one
            },
            b"",
            10,
        ),
        (
            hp_log {
                count: u64::MAX,
                ..one
            },
            b"",
            10,
        ),
        (hp_log { ended: 1, ..one }, b"", 13),
        (one, &[0; 1464], 2),
        (one, b"ABC", 9),
    ] {
        let mut bytes = lent;
        let refused = hp_logged { refusal, log };
        assert_eq!(hp_log_add(log, &mut bytes, message), refused);
        assert_eq!(bytes, lent);
        if matches!(refusal, 10 | 13) {
            assert_eq!(hp_log_declare_end(log, &lent), refused);
        }
        if refusal == 10 {
            let mut out = [0xee; 1472];
            assert_eq!(hp_log_answer(log, &lent, 0, 0, &mut out), wrote(10, 0));
            assert_eq!(hp_log_heartbeat(log, &lent, &mut out), wrote(10, 0));
            assert_eq!(hp_log_end_packet(log, &lent, &mut out), wrote(10, 0));
            assert_eq!(out, [0xee; 1472]);
        }
    }
}

#[test]
fn many_messages_are_lent_together() {
    let one = hp_log {
        count: 1,
        used: 4,
        ended: 0,
    };
    let mut bytes = *b"\0\x02HI......";
    let three = hp_log_add_many(one, &mut bytes, b"\0\0\0\x01!");
    assert_eq!(three.refusal, 0);
    assert_eq!(
        (three.log.count, three.log.used, three.log.ended),
        (3, 9, 0)
    );
    assert_eq!(bytes, *b"\0\x02HI\0\0\0\x01!.");
    assert_eq!(hp_log_add_many(three.log, &mut bytes[..9], b""), three);

    let lent = bytes;
    let long = blocks(&[&[0; 1464]]);
    let long_and_cut = [&long[..], b"\0"].concat();
    for (log, many, refusal) in [
        (hp_log { ended: 2, ..one }, &long_and_cut[..], 10),
        (hp_log { used: 5, ..one }, b"", 10),
        (hp_log { ended: 1, ..one }, &long_and_cut, 13),
        (hp_log { ended: 1, ..one }, b"", 13),
        (one, &long_and_cut, 4),
        (one, b"\0\0\0\x06ABCDE", 4),
        (one, &long, 2),
        (one, b"\0\0\0\x03ABC", 9),
    ] {
        let refused = hp_logged { refusal, log };
        assert_eq!(hp_log_add_many(log, &mut bytes, many), refused);
        assert_eq!(bytes, lent);
    }
}
