//! MEMX-UDP packets: every refusal of reader and writer, and the way there and back.

mod common;

use common::{blocks, extended, filling, memx, memx_data, number, write_into, written};
use ordinary::kinds::{Sequence, SessionId};
use ordinary::memx::{read, write, Packet};

#[test]
fn what_is_taken() {
    let session = SessionId(u64::MAX);
    assert_eq!(
        read(&memx(0, u64::MAX, u64::MAX - 1)),
        Ok(Packet::Heartbeat {
            session,
            highest: Sequence(u64::MAX - 1),
            extra: b"",
        })
    );
    assert_eq!(
        read(&memx(1, u64::MAX, 0)),
        Ok(Packet::Shutdown {
            session,
            highest: Sequence(0),
            extra: b"",
        })
    );
    let longest = memx_data(0, u64::MAX - 1, &[&[1; 8950]]);
    assert_eq!(longest.len(), 8972);
    assert_eq!(
        read(&longest),
        Ok(Packet::Sequenced {
            session: SessionId(0),
            first: Sequence(u64::MAX - 1),
            count: 1,
            extra: b"",
            blocks: &longest[20..],
        })
    );
}

/// The packet with another header length.
fn headed(packet: &[u8], length: u8) -> Vec<u8> {
    let mut packet = packet.to_vec();
    packet[1] = length;
    packet
}

/// A packet of each type: the session is 5, the number 6, and there are two messages.
fn of_each_type() -> [Vec<u8>; 3] {
    [
        memx(0, 5, 6),
        memx(1, 5, 6),
        memx_data(5, 6, &[b"", b"abc"]),
    ]
}

/// The packets of [`of_each_type`], as they are to be read with these bytes more in the header.
fn each_type(extra: &[u8]) -> [Packet<'_>; 3] {
    let (session, number) = (SessionId(5), Sequence(6));
    [
        Packet::Heartbeat {
            session,
            highest: number,
            extra,
        },
        Packet::Shutdown {
            session,
            highest: number,
            extra,
        },
        Packet::Sequenced {
            session,
            first: number,
            count: 2,
            extra,
            blocks: b"\0\0\0\x03abc",
        },
    ]
}

#[test]
fn a_longer_header_is_taken_and_its_bytes_are_kept() {
    // bytes that no field could have, and bytes that look like a count and blocks
    for fill in [&[0xff][..], &[0, 2, 0, 0], &[0]] {
        for length in 18..=255 {
            let extra: Vec<u8> = fill.iter().copied().cycle().take(length - 18).collect();
            for (packet, expected) in of_each_type().iter().zip(each_type(&extra)) {
                let packet = extended(packet, &extra);
                assert_eq!(usize::from(packet[1]), length);
                assert_eq!(read(&packet), Ok(expected));
                let again = write_into(packet.len(), |slip| write(&expected, slip));
                assert_eq!(again, Ok(packet));
            }
        }
    }
}

#[test]
fn a_header_of_19_and_one_of_20_by_hand() {
    let heartbeat = b"\0\x13\0\0\0\0\0\0\0\x05\0\0\0\0\0\0\0\x06!";
    assert_eq!(read(heartbeat), Ok(each_type(b"!")[0]));
    let data = b"\x02\x14\0\0\0\0\0\0\0\x05\0\0\0\0\0\0\0\x06\0\x01\0\x02\0\0\0\x03abc";
    assert_eq!(read(data), Ok(each_type(b"\0\x01")[2]));
    // with a header of 18 the same bytes are a count of one block, and others left over
    assert_eq!(number(read(&headed(data, 18))), 4);
    let one = b"\x02\x12\0\0\0\0\0\0\0\x05\0\0\0\0\0\0\0\x06\0\x01\0\x02\0\0";
    assert!(read(one).is_ok());
    assert_eq!(number(read(&headed(one, 19))), 4); // the count is 256
    assert_eq!(number(read(&headed(one, 20))), 4); // the count is 2
    assert_eq!(number(read(&headed(one, 21))), 4); // the count is 512, and a byte of a block
    assert_eq!(number(read(&headed(one, 22))), 6); // the count is 0
    assert_eq!(number(read(&headed(one, 23))), 4); // there is no room for a count
}

#[test]
fn a_packet_of_messages_has_8_972_bytes_at_most() {
    for extra in [&b""[..], b"!", &[0xff; 237]] {
        // as many messages as there can be, such as just fit a slot and such as don't, and one alone
        for each in [0, 1, 1470, 1471, 8950] {
            for (whole, refusal) in [(1473, 0), (8971, 0), (8972, 0), (8973, 2), (9000, 2)] {
                let (count, blocks) = filling(whole - 20 - extra.len(), each);
                let behind = [&count.to_be_bytes()[..], &blocks].concat();
                let bytes = extended(&[memx(2, 1, 6), behind].concat(), extra);
                assert_eq!(bytes.len(), whole);
                let packet = data(6, count, extra, &blocks);
                if refusal == 0 {
                    assert!(read(&bytes) == Ok(packet), "{whole} of {each}");
                    assert!(write_out(packet) == Ok(bytes), "{whole} of {each}");
                } else {
                    assert_eq!(number(read(&bytes)), refusal, "{whole} of {each}");
                    assert_eq!(write_out(packet), Err(refusal), "{whole} of {each}");
                }
            }
        }
    }
}

#[test]
fn a_packet_without_messages_has_the_same_limit() {
    for extras in [0, 1, 237] {
        for (kind, otherwise) in [(0, 4), (1, 4), (3, 3)] {
            let mut packet = extended(&memx(kind, 1, 6), &[0xff; 237][..extras]);
            for (length, refusal) in [(1473, otherwise), (8972, otherwise), (8973, 2), (9000, 2)] {
                packet.resize(length, 0);
                assert_eq!(number(read(&packet)), refusal, "{length} of type {kind}");
            }
        }
    }
}

#[test]
fn what_a_reader_refuses() {
    let over = memx_data(1, 1, &[&[1; 8951]]);
    let heartbeat = memx(0, 1, 1);
    let shutdown = memx(1, 1, 1);
    let data = memx_data(1, 1, &[b"ab"]);
    let longer = extended(&data, b"extra");
    let cases: &[(&[u8], u8)] = &[
        (b"", 1),
        (&over, 2),
        (&[0; 8973], 2),
        (b"\x03", 3),
        (&memx(3, 1, 1), 3),
        (&extended(&memx(3, 1, 1), b"!"), 3),
        (b"S\0\0\0\x01\0\0", 3),
        (b"\0", 4),
        (&heartbeat[..17], 4),
        (&[&heartbeat[..], b"!"].concat(), 4),
        (&shutdown[..17], 4),
        (&[&shutdown[..], b"\0\0"].concat(), 4),
        (&data[..18], 4),
        (&data[..19], 4),
        (&data[..20], 4),
        (&data[..23], 4),
        (&[&data[..], b"!"].concat(), 4),
        (&headed(&heartbeat, 19), 4),
        (&headed(&shutdown, 255), 4),
        (&headed(&data, 19), 4),
        (&headed(&data, 20), 4),
        (&headed(&data, 24), 4),
        (&headed(&data, 25), 4),
        (&headed(&data, 255), 4),
        (&extended(&heartbeat, b"!")[..18], 4),
        (&[&extended(&heartbeat, b"!")[..], b"!"].concat(), 4),
        (&[&extended(&shutdown, b"!")[..], b"\0\0"].concat(), 4),
        (&longer[..18], 4),
        (&longer[..22], 4),
        (&longer[..23], 4),
        (&longer[..24], 4),
        (&longer[..25], 4),
        (&longer[..28], 4),
        (&[&longer[..], b"!"].concat(), 4),
        (&headed(&heartbeat, 17), 5),
        (&headed(&shutdown, 0), 5),
        (&headed(&data, 17), 5),
        (&memx_data(1, 0, &[b"ab"]), 6),
        (&memx_data(1, 1, &[]), 6),
        (&extended(&memx_data(1, 0, &[b"ab"]), b"!"), 6),
        (&extended(&memx_data(1, 1, &[]), b"!"), 6),
        (&memx(0, 1, u64::MAX), 7),
        (&memx(1, 1, u64::MAX), 7),
        (&extended(&memx(1, 1, u64::MAX), b"!"), 7),
        (&memx_data(1, u64::MAX, &[b""]), 7),
        (&memx_data(1, u64::MAX - 1, &[b"", b""]), 7),
        (&extended(&memx_data(1, u64::MAX, &[b""]), b"!"), 7),
    ];
    for (packet, refusal) in cases {
        assert_eq!(number(read(packet)), *refusal, "{packet:?}");
    }
}

#[test]
fn a_reader_s_checks_come_in_order() {
    let cut = [&headed(&memx_data(1, 0, &[b"ab"]), 17)[..], b"!"].concat();
    // 3, before a length of any kind
    assert_eq!(number(read(&headed(&memx(3, 1, 1), 17))), 3);
    assert_eq!(number(read(&headed(&memx(3, 1, 1), 19))), 3);
    // 4 without a whole header, before 5
    assert_eq!(number(read(&headed(&memx(0, 1, 1), 17)[..17])), 4);
    assert_eq!(number(read(&cut[..17])), 4);
    assert_eq!(number(read(b"\x02\0")), 4);
    // 5, before any other length, before 6 and before 7
    for length in 18..=cut.len() {
        for header_length in 0..18 {
            let packet = headed(&cut[..length], header_length);
            assert_eq!(number(read(&packet)), 5, "{packet:?}");
        }
    }
    assert_eq!(
        number(read(&[&headed(&memx(1, 1, 1), 17)[..], b"!"].concat())),
        5
    );
    assert_eq!(number(read(&headed(&memx_data(1, 0, &[]), 17))), 5);
    assert_eq!(number(read(&headed(&memx(0, 1, u64::MAX), 17))), 5);
    // 4 for any other length, before 6 and before 7
    assert_eq!(number(read(&headed(&memx_data(1, 0, &[]), 19))), 4);
    assert_eq!(number(read(&headed(&memx(0, 1, u64::MAX), 19))), 4);
    // 6, before 7
    assert_eq!(number(read(&memx_data(1, u64::MAX, &[]))), 6);
    assert_eq!(
        number(read(&extended(&memx_data(1, u64::MAX, &[]), b"!"))),
        6
    );
}

fn write_out(packet: Packet) -> Result<Vec<u8>, u8> {
    written(|slip| write(&packet, slip))
}

/// A type 2 packet of session 1.
fn data<'a>(first: u64, count: u16, extra: &'a [u8], blocks: &'a [u8]) -> Packet<'a> {
    Packet::Sequenced {
        session: SessionId(1),
        first: Sequence(first),
        count,
        extra,
        blocks,
    }
}

/// A heartbeat and a shutdown of session 1.
fn bodiless(highest: u64, extra: &[u8]) -> [Packet<'_>; 2] {
    let (session, highest) = (SessionId(1), Sequence(highest));
    [
        Packet::Heartbeat {
            session,
            highest,
            extra,
        },
        Packet::Shutdown {
            session,
            highest,
            extra,
        },
    ]
}

#[test]
fn what_a_writer_refuses() {
    for extra in [&b""[..], b"!", &[0xff; 237]] {
        let most = [0; 8953];
        let over = &most[extra.len()..];
        let cases = [
            (data(0, 0, extra, over), 2),
            (data(0, 0, extra, &over[1..]), 4),
            (data(0, 0, extra, b"\0\0"), 4),
            (data(1, 2, extra, b"\0\0"), 4),
            (data(0, 1, extra, b"\0\0"), 6),
            (data(1, 0, extra, b""), 6),
            (data(u64::MAX, 0, extra, b""), 6),
            (data(u64::MAX, 1, extra, b"\0\0"), 7),
            (bodiless(u64::MAX, extra)[0], 7),
            (bodiless(u64::MAX, extra)[1], 7),
        ];
        for (packet, refusal) in cases {
            assert_eq!(write_out(packet), Err(refusal), "{packet:?}");
        }
    }
}

#[test]
fn a_header_has_237_extra_bytes_at_most() {
    let extra = [0xff; 8955];
    for packet in bodiless(1, &extra[..237]) {
        let bytes = write_out(packet).unwrap();
        assert_eq!((bytes[1], bytes.len()), (255, 255));
        assert_eq!(read(&bytes), Ok(packet));
    }
    let bytes = write_out(data(1, 1, &extra[..237], b"\0\x02ab")).unwrap();
    assert_eq!((bytes[1], bytes.len()), (255, 261));
    assert_eq!(bytes[255..], *b"\0\x01\0\x02ab");

    // 5, before 4, 6 and 7
    for length in [238, 239, 255, 256, 493, 494, 495, 1455, 8950] {
        let extra = &extra[..length];
        for packet in [
            data(1, 1, extra, b"\0\0"),
            data(1, 9, extra, b"\0\0"),
            data(1, 0, extra, b"\0\0"),
            data(0, 0, extra, b""),
            data(u64::MAX, 1, extra, b"\0\0"),
            bodiless(1, extra)[0],
            bodiless(u64::MAX, extra)[1],
        ] {
            assert_eq!(write_out(packet), Err(5), "{length} in {packet:?}");
        }
    }

    // 2, before 5
    for (length, bodiless_refusal, data_refusal) in
        [(8952, 5, 5), (8953, 5, 2), (8954, 5, 2), (8955, 2, 2)]
    {
        let extra = &extra[..length];
        for packet in bodiless(1, extra) {
            assert_eq!(write_out(packet), Err(bodiless_refusal), "{length}");
        }
        assert_eq!(write_out(data(1, 0, extra, b"")), Err(data_refusal));
    }
    assert_eq!(write_out(data(1, 1, &extra[..238], &[0; 8714])), Err(5));
    assert_eq!(write_out(data(1, 1, &extra[..238], &[0; 8715])), Err(2));
}

#[test]
fn what_is_read_is_written_again() {
    for packet in [
        memx(0, 0, 0),
        memx(0, 0x0102_0304_0506_0708, u64::MAX - 1),
        memx(1, u64::MAX, 0x1112_1314_1516_1718),
        memx_data(9, 1, &[b""]),
        memx_data(9, u64::MAX - 2, &[b"\n", b"\0"]),
        memx_data(9, 1, &[&[0xff; 8950]]),
        memx_data(9, 1, &[b"".as_slice(); 4476]),
        extended(&memx(0, 1, 2), b"\x12"),
        extended(&memx(1, 1, 2), &[0xff; 237]),
        extended(&memx_data(9, 1, &[&[0xff; 8949]]), b"!"),
        extended(&memx_data(9, 1, &[b"".as_slice(); 4357]), &[2; 237]),
        extended(&memx_data(9, 1, &[b"a"]), &blocks(&[b"b", b"c"])),
    ] {
        assert_eq!(write_out(read(&packet).unwrap()), Ok(packet));
    }
}
