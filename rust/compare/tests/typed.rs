//! The typed face: whatever it reads it writes again as it was, but for noughts before a Soup number, and
//! it refuses what the flat face refuses.

use compare::dice::Dice;
use compare::limits::{MEMX, SOUP, TCP, UFO};
use compare::{make, spelling};
use hinurapay::memx_tcp::{self, LoginReject, Mode, Packet, ReplayReject, StreamReject};
use hinurapay::{
    flat, memx, soup, ufo, Area, Name, Password, Record, Refusal, Sequence, SessionId, User,
};

const CASES: u64 = 20_000;

/// Makes packets, gives them to a typed reader whose answer is written again, and compares that with
/// what is due for the packet.
fn come_back(
    make: fn(&mut Dice) -> Vec<u8>,
    limit: usize,
    again: fn(&[u8], &mut [u8]) -> Result<usize, Refusal>,
    refusal: fn(&[u8]) -> u64,
    due: fn(&[u8]) -> Vec<u8>,
) {
    let mut taken = 0;
    for case in 0..CASES {
        let mut dice = Dice::seeded(1, limit as u64, case);
        let mut packet = make(&mut dice);
        make::damage(&mut packet, limit, &mut dice);
        let mut out = vec![0; packet.len()];
        let wrote = again(&packet, &mut out);
        let number = wrote.map_or_else(|refusal| u64::from(refusal.number()), |_| 0);
        assert_eq!(number, refusal(&packet), "{packet:02x?}");
        if let Ok(length) = wrote {
            assert_eq!(out[..length], due(&packet));
            taken += 1;
        }
    }
    assert!(taken > CASES / 4);
}

/// The same for packets that come back as they were.
fn round_trips(
    make: fn(&mut Dice) -> Vec<u8>,
    limit: usize,
    again: fn(&[u8], &mut [u8]) -> Result<usize, Refusal>,
    refusal: fn(&[u8]) -> u64,
) {
    come_back(make, limit, again, refusal, <[u8]>::to_vec);
}

#[test]
fn soup_packets_come_back_by_their_spelling() {
    come_back(
        make::soup,
        SOUP,
        |packet, out| soup::write(&soup::read(packet)?, out),
        |packet| flat::hp_soup_read(packet).refusal,
        spelling,
    );
}

/// An `A` and an `L` with the number as it is spelt.
fn numbered(number: &str) -> [Vec<u8>; 2] {
    [
        format!("A{:>10}{number:>20}\n", 8841).into_bytes(),
        format!("L{:<6}{:10}{:>10}{number:>20}\n", 'u', "", 8841).into_bytes(),
    ]
}

#[test]
fn soup_numbers_may_have_noughts_before_them() {
    let (session, next) = (Name(*b"      8841"), Sequence(42));
    let login = |next| soup::Packet::Login {
        user: SOMEBODY,
        password: Password(*b"          "),
        session,
        next,
    };
    let packets = [soup::Packet::Accepted { session, next }, login(next)];
    for number in ["42", "042", "      00000000000042", "00000000000000000042"] {
        for ((bytes, spelt), packet) in numbered(number).iter().zip(numbered("42")).zip(packets) {
            assert_eq!(soup::read(bytes), Ok(packet), "{number}");
            let mut out = vec![0; bytes.len()];
            assert_eq!(soup::write(&packet, &mut out), Ok(bytes.len()));
            assert_eq!(out, spelt);
        }
    }
    for number in ["0", "00", "00000000000000000000"] {
        let [accepted, asked] = numbered(number);
        assert_eq!(soup::read(&accepted), Err(Refusal::Blank), "{number}");
        assert_eq!(soup::read(&asked), Ok(login(Sequence(0))), "{number}");
    }
    for number in ["0 42", "0                 42", "000000000000000000 0"] {
        for packet in numbered(number) {
            assert_eq!(soup::read(&packet), Err(Refusal::Form), "{number}");
        }
    }
}

#[test]
fn ufo_packets_from_the_server_come_back() {
    round_trips(
        |dice| make::ufo_down(make::number(dice), dice),
        UFO,
        |packet, out| ufo::write_down(&ufo::read_down(packet)?, out),
        |packet| flat::hp_ufo_read_down(packet).refusal,
    );
}

#[test]
fn ufo_packets_from_the_client_come_back() {
    round_trips(
        |dice| make::ufo_up(dice).0,
        UFO,
        |packet, out| {
            let mut length = 0;
            for message in ufo::read_up(packet)? {
                length += ufo::write_message(&message, &mut out[length..])?;
            }
            Ok(length)
        },
        |packet| flat::hp_ufo_read_up(packet).refusal,
    );
}

#[test]
fn ufo_packets_from_the_client_are_put_together_again() {
    round_trips(
        |dice| make::ufo_up(dice).0,
        UFO,
        |packet, out| {
            let mut upstream = ufo::Upstream::over(out);
            for message in ufo::read_up(packet)? {
                upstream.add(&message)?;
            }
            Ok(upstream.packet().len())
        },
        |packet| flat::hp_ufo_read_up(packet).refusal,
    );
}

const SOMEBODY: User = User(*b"u     ");
const NOBODY: User = User(*b"      ");

#[test]
fn a_soup_login_names_its_user() {
    let bytes = format!("L{:<6}{:10}{:10}{:>20}\n", 'u', "", "", 7).into_bytes();
    let login = |user| soup::Packet::Login {
        user,
        password: Password(*b"          "),
        session: Name(*b"          "),
        next: Sequence(7),
    };
    let mut out = [0xee; 48];
    assert_eq!(soup::write(&login(NOBODY), &mut out), Err(Refusal::Blank));
    assert_eq!(out, [0xee; 48]);
    assert_eq!(soup::write(&login(NOBODY), &mut []), Err(Refusal::Blank));
    assert_eq!(soup::write(&login(SOMEBODY), &mut out), Ok(48));
    assert_eq!(out[..], bytes);
    assert_eq!(soup::read(&bytes), Ok(login(SOMEBODY)));
    out[1] = b' ';
    assert_eq!(soup::read(&out), Err(Refusal::Blank));
}

#[test]
fn a_ufo_login_names_its_user() {
    let bytes = format!("\0\x01R\0\x1bL{:<6}{:10}{:10}", 'u', "", "").into_bytes();
    let login = |user| ufo::Up::Login {
        user,
        password: Password(*b"          "),
        session: Name(*b"          "),
    };
    let mut out = [0xee; 32];
    let alone = ufo::write_message(&login(NOBODY), &mut out);
    assert_eq!((alone, out), (Err(Refusal::Blank), [0xee; 32]));
    let mut upstream = ufo::Upstream::over(&mut out);
    upstream.add(&ufo::Up::Heartbeat).unwrap();
    assert_eq!(upstream.add(&login(NOBODY)), Err(Refusal::Blank));
    assert_eq!(upstream.packet(), b"\0\x01R");
    assert_eq!(out[3..], [0xee; 29]);
    assert_eq!(ufo::write_message(&login(SOMEBODY), &mut out[3..]), Ok(29));
    assert_eq!(out[..], bytes);
    let messages = ufo::read_up(&bytes).unwrap();
    assert!(messages.eq([ufo::Up::Heartbeat, login(SOMEBODY)]));
    out[6] = b' ';
    assert_eq!(ufo::read_up(&out).unwrap_err(), Refusal::Blank);
}

#[test]
fn memx_packets_come_back() {
    round_trips(
        |dice| make::memx(make::number(dice), make::number(dice), dice),
        MEMX,
        |packet, out| memx::write(&memx::read(packet)?, out),
        |packet| flat::hp_memx_read(packet).refusal,
    );
}

#[test]
fn memx_fields_stand_in_their_places() {
    let (session, highest, first) = (SessionId(7), Sequence(8), Sequence(8));
    let packets: [(&[u8], memx::Packet); 5] = [
        (
            b"\0\x12\0\0\0\0\0\0\0\x07\0\0\0\0\0\0\0\x08",
            memx::Packet::Heartbeat {
                session,
                highest,
                extra: b"",
            },
        ),
        (
            b"\0\x13\0\0\0\0\0\0\0\x07\0\0\0\0\0\0\0\x08!",
            memx::Packet::Heartbeat {
                session,
                highest,
                extra: b"!",
            },
        ),
        (
            b"\x01\x15\0\0\0\0\0\0\0\x07\0\0\0\0\0\0\0\x08abc",
            memx::Packet::Shutdown {
                session,
                highest,
                extra: b"abc",
            },
        ),
        (
            b"\x02\x12\0\0\0\0\0\0\0\x07\0\0\0\0\0\0\0\x08\0\x01\0\x02HI",
            memx::Packet::Sequenced {
                session,
                first,
                count: 1,
                extra: b"",
                blocks: b"\0\x02HI",
            },
        ),
        (
            b"\x02\x14\0\0\0\0\0\0\0\x07\0\0\0\0\0\0\0\x08\0\x01\0\x02\0\0\0\0",
            memx::Packet::Sequenced {
                session,
                first,
                count: 2,
                extra: b"\0\x01",
                blocks: b"\0\0\0\0",
            },
        ),
    ];
    for (bytes, packet) in packets {
        assert_eq!(memx::read(bytes), Ok(packet));
        let mut out = [0; 30];
        assert_eq!(memx::write(&packet, &mut out), Ok(bytes.len()));
        assert_eq!(out[..bytes.len()], *bytes);
    }
}

#[test]
fn a_memx_header_has_237_extra_bytes_at_most() {
    let (session, highest) = (SessionId(7), Sequence(8));
    let heartbeat = |extra| memx::Packet::Heartbeat {
        session,
        highest,
        extra,
    };
    assert_eq!(memx::MOST_EXTRA, 237);
    let extra = [0xff; MEMX];
    let mut out = [0; MEMX];
    assert_eq!(memx::write(&heartbeat(&extra[..237]), &mut out), Ok(255));
    assert_eq!(memx::read(&out[..255]), Ok(heartbeat(&extra[..237])));
    for (extras, refusal) in [
        (238, Refusal::Form),
        (MEMX - 18, Refusal::Form),
        (MEMX - 17, Refusal::Oversize),
    ] {
        let wrote = memx::write(&heartbeat(&extra[..extras]), &mut out);
        assert_eq!(wrote, Err(refusal), "{extras}");
    }
}

#[test]
fn memx_tcp_packets_come_back() {
    round_trips(
        make::tcp,
        TCP,
        |packet, out| memx_tcp::write(&memx_tcp::read(packet)?, out),
        |packet| flat::hp_tcp_read(packet).refusal,
    );
}

#[test]
fn memx_tcp_fields_stand_in_their_places() {
    let (session, next, highest) = (SessionId(7), Sequence(8), Sequence(9));
    let packets: [(&[u8], Packet); 17] = [
        (b"\0\0\0", Packet::Heartbeat),
        (b"\x01\0\x01R", Packet::LoginAccepted(Mode::Replay)),
        (
            b"\x02\0\x01V",
            Packet::LoginRejected(LoginReject::InvalidType),
        ),
        (
            b"\x03\0\x08\0\0\0\0\0\0\0\x07",
            Packet::StartOfSession(session),
        ),
        (b"\x04\0\0", Packet::EndOfSession),
        (
            b"\x05\0\x0c\0\0\0\0\0\0\0\x08\0\0\0\x0a",
            Packet::ReplayBegin { next, pending: 10 },
        ),
        (
            b"\x06\0\x01P",
            Packet::ReplayRejected(ReplayReject::NotActive),
        ),
        (b"\x07\0\x04\0\0\0\x0a", Packet::ReplayComplete { sent: 10 }),
        (
            b"\x08\0\x10\0\0\0\0\0\0\0\x08\0\0\0\0\0\0\0\x09",
            Packet::StreamBegin { next, highest },
        ),
        (
            b"\x09\0\x01S",
            Packet::StreamRejected(StreamReject::OutOfRange),
        ),
        (
            b"\x0a\0\x08\0\0\0\0\0\0\0\x0b",
            Packet::StreamComplete { total: 11 },
        ),
        (b"\x0b\0\x02HI", Packet::Sequenced(b"HI")),
        (b"d\0\x03Pu:", Packet::LoginRequest { token: b"u:" }),
        (
            b"e\0\x14\0\0\0\0\0\0\0\x07\0\0\0\0\0\0\0\x08\0\0\0\x0a",
            Packet::ReplayRequest {
                session,
                next,
                count: 10,
            },
        ),
        (
            b"f\0\x08\0\0\0\0\0\0\0\x07",
            Packet::ReplayAllRequest(session),
        ),
        (
            b"g\0\x10\0\0\0\0\0\0\0\x07\0\0\0\0\0\0\0\x08",
            Packet::StreamRequest { session, next },
        ),
        (b"h\0\x02HO", Packet::Unsequenced(b"HO")),
    ];
    for (bytes, packet) in packets {
        assert_eq!(memx_tcp::read(bytes), Ok(packet));
        let mut out = [0; 30];
        assert_eq!(memx_tcp::write(&packet, &mut out), Ok(bytes.len()));
        assert_eq!(out[..bytes.len()], *bytes);
    }
}

#[test]
fn the_missing_ranges_are_handed_out_one_after_another() {
    let mut most = 0;
    for case in 0..CASES {
        let kept = make::record(&mut Dice::seeded(2, 0, case));
        let Ok(record) = Record::resumed(kept) else {
            assert_eq!(flat::hp_missing_range(kept, 0).refusal, 10);
            continue;
        };
        let standing = record.standing().unwrap();
        let ranges: Vec<_> = record.missing().collect();
        for (place, &(first, last)) in ranges.iter().enumerate() {
            let range = flat::hp_missing_range(kept, place as u64);
            assert_eq!((range.first, range.last), (first.0, last.0));
        }
        assert_eq!(ranges.len(), standing.missing);
        assert_eq!(ranges.first().copied(), standing.first);
        most = most.max(ranges.len());
    }
    assert_eq!(most, 17);
}

#[test]
fn a_record_and_its_area_can_be_kept() {
    let mut record = Record::open_memx(SessionId(7));
    let mut area = Area::new();
    let mut datagram = *b"\x02\x12\0\0\0\0\0\0\0\x07\0\0\0\0\0\0\0\x02\0\x01\0\x02HI";
    record.take(&mut area, &datagram, &mut []).unwrap();
    assert_eq!(record.held(), 1 << 2);

    let (kept, bytes) = (record.flat(), area.0);
    let mut record = Record::resumed(kept).unwrap();
    let mut out = [0; Record::ROOM];
    datagram[17] = 1;
    let other = record.take(&mut Area([0xff; Area::BYTES]), &datagram, &mut out);
    assert_eq!(other, Err(Refusal::Broken), "another area");
    let taken = record.take(&mut Area(bytes), &datagram, &mut out).unwrap();
    assert_eq!(taken.blocks, b"\0\x02HI\0\x02HI");
}

#[test]
fn refusals_have_their_numbers() {
    for (place, refusal) in Refusal::ALL.into_iter().enumerate() {
        assert_eq!(usize::from(refusal.number()), place + 1);
        assert_eq!(Refusal::numbered(place as u64 + 1), Some(refusal));
        assert!(!refusal.meaning().is_empty());
    }
    assert_eq!((Refusal::numbered(0), Refusal::numbered(17)), (None, None));
}
