//! MEMX-TCP packets: every type, every refusal of reader and writer, and the way there and back.

mod common;

use common::{number, tcp, written, TCP};
use ordinary::kinds::{Sequence, SessionId};
use ordinary::memx_tcp::{
    read, write, LoginReject, Mode, Packet, ReplayReject, StreamReject, TokenType, LIMIT,
};

/// What the packets in [`TCP`] say.
const SAID: [Packet; 17] = [
    Packet::Heartbeat,
    Packet::LoginAccepted(Mode::SNAPSHOT),
    Packet::LoginRejected(LoginReject::UNSUPPORTED_TYPE),
    Packet::StartOfSession(SessionId(0x0102_0304_0506_0708)),
    Packet::EndOfSession,
    Packet::ReplayBegin {
        next: Sequence(0x0102),
        pending: 0x0304,
    },
    Packet::ReplayRejected(ReplayReject::NO_REPLAY_ALL),
    Packet::ReplayComplete { sent: 0x0506_0708 },
    Packet::StreamBegin {
        next: Sequence(9),
        highest: Sequence(0x0a_0b0c),
    },
    Packet::StreamRejected(StreamReject::NOT_ACTIVE),
    Packet::StreamComplete { total: 0x0d0e },
    Packet::Sequenced(b"HI"),
    Packet::LoginRequest {
        token_type: TokenType::STATIC_PASSWORD,
        token: b"me:secret",
    },
    Packet::ReplayRequest {
        session: SessionId(0x1112_1314_1516_1718),
        next: Sequence(0x19),
        count: 0x1a,
    },
    Packet::ReplayAllRequest(SessionId(0x2122_2324_2526_2728)),
    Packet::StreamRequest {
        session: SessionId(0x3132_3334_3536_3738),
        next: Sequence(0),
    },
    Packet::Unsequenced(b"HO!"),
];

fn write_out(packet: Packet) -> Result<Vec<u8>, u8> {
    written(|slip| write(&packet, slip))
}

/// Reads and writes again: the packet itself, or the refusal's number.
fn there_and_back(packet: &[u8]) -> Result<Vec<u8>, u8> {
    match read(packet) {
        Ok(said) => write_out(said),
        Err(refusal) => Err(refusal.number()),
    }
}

#[test]
fn every_type_is_read_and_written() {
    for (packet, said) in TCP.into_iter().zip(SAID) {
        assert_eq!(read(packet), Ok(said));
        assert_eq!(write_out(said), Ok(packet.to_vec()));
    }
}

#[test]
fn no_other_type_is_known() {
    let types = TCP.map(|packet| packet[0]);
    for kind in 0..=u8::MAX {
        let known = types.contains(&kind);
        assert_eq!(number(read(&[kind])), if known { 4 } else { 3 }, "{kind}");
        assert_eq!(number(read(&tcp(kind, b"!"))) != 3, known, "{kind}");
    }
}

#[test]
fn a_letter_is_one_of_its_table() {
    let tables: [(u8, &[u8]); 5] = [
        (1, b"SRT"),
        (2, b"TUVA"),
        (6, b"RAPS"),
        (9, b"RPS"),
        (100, b"P"),
    ];
    for (kind, table) in tables {
        for letter in 0..=u8::MAX {
            let packet = tcp(kind, &[letter]);
            let expected = if table.contains(&letter) {
                Ok(packet.clone())
            } else {
                Err(5)
            };
            assert_eq!(there_and_back(&packet), expected, "{packet:?}");
        }
    }
}

#[test]
fn a_letter_has_its_meaning() {
    let cases: [(&[u8], Packet); 15] = [
        (b"\x01S", Packet::LoginAccepted(Mode::STREAM)),
        (b"\x01R", Packet::LoginAccepted(Mode::REPLAY)),
        (b"\x01T", Packet::LoginAccepted(Mode::SNAPSHOT)),
        (
            b"\x02T",
            Packet::LoginRejected(LoginReject::MALFORMED_TOKEN),
        ),
        (
            b"\x02U",
            Packet::LoginRejected(LoginReject::UNSUPPORTED_TYPE),
        ),
        (b"\x02V", Packet::LoginRejected(LoginReject::INVALID_TYPE)),
        (b"\x02A", Packet::LoginRejected(LoginReject::NOT_AUTHORISED)),
        (b"\x06R", Packet::ReplayRejected(ReplayReject::NO_REPLAYS)),
        (
            b"\x06A",
            Packet::ReplayRejected(ReplayReject::NO_REPLAY_ALL),
        ),
        (b"\x06P", Packet::ReplayRejected(ReplayReject::NOT_ACTIVE)),
        (b"\x06S", Packet::ReplayRejected(ReplayReject::OUT_OF_RANGE)),
        (b"\x09R", Packet::StreamRejected(StreamReject::NO_STREAMS)),
        (b"\x09P", Packet::StreamRejected(StreamReject::NOT_ACTIVE)),
        (b"\x09S", Packet::StreamRejected(StreamReject::OUT_OF_RANGE)),
        (
            b"dP",
            Packet::LoginRequest {
                token_type: TokenType::STATIC_PASSWORD,
                token: b"",
            },
        ),
    ];
    for (letters, said) in cases {
        assert_eq!(read(&tcp(letters[0], &letters[1..])), Ok(said));
    }
}

/// Whether a type carries any number of bytes.
fn stretches(kind: u8) -> bool {
    matches!(kind, 11 | 100 | 104)
}

#[test]
fn a_length_that_the_type_does_not_carry_is_4() {
    for packet in TCP {
        let (kind, bytes) = (packet[0], &packet[3..]);
        let expected = if stretches(kind) { 0 } else { 4 };
        let more = tcp(kind, &[bytes, b"P"].concat());
        assert_eq!(number(read(&more)), expected, "{more:?}");
        if let Some((_, less)) = bytes.split_last() {
            let less = tcp(kind, less);
            assert_eq!(number(read(&less)), expected, "{less:?}");
        }
    }
    assert_eq!(number(read(&tcp(100, b""))), 4);
}

#[test]
fn a_length_that_is_not_what_follows_is_4() {
    for packet in TCP {
        for stated in [packet[2].wrapping_sub(1), packet[2] + 1] {
            let mut packet = packet.to_vec();
            packet[2] = stated;
            assert_eq!(number(read(&packet)), 4, "{packet:?}");
        }
        let mut far = packet.to_vec();
        far[1] = 1;
        assert_eq!(number(read(&far)), 4, "{far:?}");
        assert_eq!(number(read(&[packet, b"!"].concat())), 4);
        for cut in 1..packet.len() {
            assert_eq!(number(read(&packet[..cut])), 4, "{packet:?} {cut}");
        }
    }
}

fn login(token: &[u8]) -> Packet<'_> {
    Packet::LoginRequest {
        token_type: TokenType::STATIC_PASSWORD,
        token,
    }
}

#[test]
fn a_token_has_at_most_255_bytes() {
    let bytes = [0xff; 257];
    for length in 0..=257 {
        let token = &bytes[..length];
        let packet = tcp(100, &[b"P", token].concat());
        if length <= 255 {
            assert_eq!(read(&packet), Ok(login(token)));
            assert_eq!(write_out(login(token)), Ok(packet));
        } else {
            assert_eq!(number(read(&packet)), 4);
            assert_eq!(write_out(login(token)), Err(4));
        }
    }
}

#[test]
fn a_payload_has_whatever_the_length_can_say() {
    let most = vec![0xff; 65_536];
    for length in [0, 1, 255, 256, 65_534, 65_535] {
        let payload = &most[..length];
        for (kind, said) in [
            (11, Packet::Sequenced(payload)),
            (104, Packet::Unsequenced(payload)),
        ] {
            let packet = tcp(kind, payload);
            assert_eq!(read(&packet), Ok(said), "{length}");
            assert_eq!(write_out(said), Ok(packet), "{length}");
        }
    }
    for (kind, said) in [
        (11, Packet::Sequenced(&most)),
        (104, Packet::Unsequenced(&most)),
    ] {
        let packet = tcp(kind, &most);
        assert_eq!(packet.len(), LIMIT + 1);
        assert_eq!(number(read(&packet)), 2);
        assert_eq!(write_out(said), Err(2));
    }
}

/// The packet with zeros in these of its bytes.
fn zeroed(packet: &[u8], from: usize, width: usize) -> Vec<u8> {
    let mut packet = packet.to_vec();
    packet[from..from + width].fill(0);
    packet
}

#[test]
fn only_a_next_number_must_not_be_0() {
    let [_, _, _, start, _, begin, _, complete, stream, _, total, _, _, replay, all, request, _] =
        TCP;
    for (packet, from, width, refused) in [
        (start, 3, 8, false),
        (begin, 3, 8, true),
        (begin, 11, 4, false),
        (complete, 3, 4, false),
        (stream, 3, 8, true),
        (stream, 11, 8, false),
        (total, 3, 8, false),
        (replay, 3, 8, false),
        (replay, 11, 8, true),
        (replay, 19, 4, false),
        (all, 3, 8, false),
        (request, 3, 8, false),
        (request, 11, 8, false),
    ] {
        let zero = zeroed(packet, from, width);
        let expected = if refused { Err(6) } else { Ok(zero.clone()) };
        assert_eq!(there_and_back(&zero), expected, "{zero:?}");

        let mut greatest = packet.to_vec();
        greatest[from..from + width].fill(0xff);
        assert_eq!(there_and_back(&greatest), Ok(greatest), "no bound");
    }
}

#[test]
fn a_number_of_which_one_byte_is_not_0_is_not_0() {
    for (packet, from) in [(TCP[5], 3), (TCP[8], 3), (TCP[13], 11)] {
        for place in from..from + 8 {
            let mut packet = zeroed(packet, from, 8);
            packet[place] = 1;
            assert_eq!(there_and_back(&packet), Ok(packet));
        }
    }
}

#[test]
fn the_lower_check_comes_first() {
    let mut over = vec![0xff; LIMIT + 1];
    assert_eq!(number(read(b"")), 1);
    assert_eq!(number(read(&over)), 2);
    over.pop();
    assert_eq!(number(read(&over)), 3);
    assert_eq!(number(read(&[12, 0, 9])), 3);
    assert_eq!(number(read(&tcp(1, b"XX"))), 4);
    assert_eq!(number(read(b"\x01\0\x02X")), 4);
    assert_eq!(number(read(&tcp(100, &[b'X'; 257]))), 4);
    assert_eq!(number(read(&tcp(5, &[0; 13]))), 4);
    assert_eq!(number(read(&zeroed(TCP[13], 2, 17))), 4);
}

#[test]
fn what_a_writer_refuses() {
    let many = vec![b'!'; 65_536];
    let login_as = |token_type, length| Packet::LoginRequest {
        token_type: TokenType(token_type),
        token: &many[..length],
    };
    let next = Sequence(0);
    let session = SessionId(0);
    let cases = [
        (Packet::Sequenced(&many), 2),
        (Packet::Unsequenced(&many), 2),
        (login_as(b'X', 65_535), 2),
        (login_as(b'X', 65_534), 4),
        (login_as(b'X', 256), 4),
        (login_as(b'P', 256), 4),
        (login_as(b'X', 255), 5),
        (login_as(b'p', 0), 5),
        (Packet::LoginAccepted(Mode(b'P')), 5),
        (Packet::LoginRejected(LoginReject(b'S')), 5),
        (Packet::ReplayRejected(ReplayReject(b'T')), 5),
        (Packet::StreamRejected(StreamReject(b'A')), 5),
        (Packet::ReplayBegin { next, pending: 1 }, 6),
        (
            Packet::StreamBegin {
                next,
                highest: Sequence(1),
            },
            6,
        ),
        (
            Packet::ReplayRequest {
                session,
                next,
                count: 1,
            },
            6,
        ),
    ];
    for (packet, refusal) in cases {
        assert_eq!(write_out(packet), Err(refusal));
    }
}
