//! UFO messages from the client: every refusal of readers and writer, and the way there and back.

mod common;

use common::{blocks, number, written, USERS};
use ordinary::kinds::{Name, Password, Sequence, User};
use ordinary::ufo::{read_message, read_up, write_message, Packet, Up};

const LOGIN: &[u8] = b"Luser1 password  8841      ";

/// A login that names no user, and is lawful otherwise.
const NAMELESS: &[u8] = b"L      password  8841      ";

#[test]
fn a_packet_of_every_message() {
    let request = b"T\0\0\0\x03\0\x02";
    let packet = blocks(&[LOGIN, request, b"U", b"U\0\n!", b"R", b"O"]);
    assert_eq!(read_up(&packet), Ok(6));
    let login = Up::Login {
        user: User(*b"user1 "),
        password: Password(*b"password  "),
        session: Name(*b"8841      "),
    };
    let request = Up::Request {
        first: Sequence(3),
        count: 2,
    };
    let mut place = 0;
    for expected in [
        (login, 29),
        (request, 38),
        (Up::Unsequenced(b""), 41),
        (Up::Unsequenced(b"\0\n!"), 47),
        (Up::Heartbeat, 50),
        (Up::Logoff, 53),
    ] {
        assert_eq!(read_message(&packet, place), Ok(expected));
        place = expected.1;
    }
    assert_eq!(place, packet.len());
    assert_eq!(number(read_message(&packet, place)), 4);
}

#[test]
fn password_and_session_may_be_blank_upstream_but_not_the_user() {
    for (user, refusal) in USERS {
        let login = format!("L{user:<6}{:20}", "").into_bytes();
        assert_eq!(number(read_up(&blocks(&[&login]))), refusal, "{user:?}");
    }
}

#[test]
fn what_the_packet_reader_refuses() {
    let fullest = blocks(&[&[b'U'; 1470]]);
    assert_eq!(read_up(&fullest), Ok(1));
    let over = blocks(&[&[b'U'; 1471]]);
    let cases: &[(&[u8], u8)] = &[
        (b"", 1),
        (&over, 2),
        (&[0; 1473], 2),
        (b"\0\x01X", 3),
        (b"\0\x01r", 3),
        (b"\0", 4),
        (b"\0\0", 4),
        (b"\0\x02R", 4),
        (b"\0\x01R\0", 4),
        (b"\0\x01R\0\0", 4),
        (b"\0\x01R\0\x01", 4),
        (b"\0\x02R ", 4),
        (b"\0\x02O ", 4),
        (&blocks(&[&LOGIN[..26]]), 4),
        (&blocks(&[&[LOGIN, b" "].concat()]), 4),
        (&blocks(&[b"T\0\0\0\x01\0"]), 4),
        (&blocks(&[b"T\0\0\0\x01\0\x01\0"]), 4),
        (&blocks(&[b"L user password  8841      "]), 5),
        (&blocks(&[b"Luser1  password 8841      "]), 5),
        (&blocks(&[b"Luser1 password        8841"]), 5),
        (&blocks(&[b"Luser1 pass-word 8841      "]), 5),
        (&blocks(&[b"L      pass-word 8841      "]), 5),
        (&blocks(&[b"L       password 8841      "]), 5),
        (&blocks(&[b"L      password        8841"]), 5),
        (&blocks(&[b"T\0\0\0\0\0\x01"]), 6),
        (&blocks(&[b"T\0\0\0\x01\0\0"]), 6),
        (&blocks(&[NAMELESS]), 6),
        (&blocks(&[&NAMELESS[..26]]), 4),
    ];
    for (packet, refusal) in cases {
        assert_eq!(number(read_up(packet)), *refusal, "{packet:?}");
    }
}

#[test]
fn lengths_come_first_over_the_whole_packet_then_message_by_message() {
    let unknown = b"\0\x01X";
    let cut = b"\0\x02R";
    assert_eq!(number(read_up(&[&unknown[..], cut].concat())), 4);
    let nought = blocks(&[b"T\0\0\0\0\0\x01", b"X"]);
    assert_eq!(number(read_up(&nought)), 6);
    let reversed = blocks(&[b"X", b"T\0\0\0\0\0\x01"]);
    assert_eq!(number(read_up(&reversed)), 3);
    assert_eq!(number(read_up(&blocks(&[LOGIN, NAMELESS, b"X"]))), 6);
    assert_eq!(number(read_up(&blocks(&[LOGIN, b"X", NAMELESS]))), 3);
    let cut_behind = [&blocks(&[NAMELESS])[..], cut].concat();
    assert_eq!(number(read_up(&cut_behind)), 4);
    assert_eq!(number(read_up(&blocks(&[b"R", b"R ", b"X"]))), 4);
}

#[test]
fn a_request_has_no_bound_but_its_bytes() {
    let request = b"T\xff\xff\xff\xff\xff\xff";
    let read = Up::Request {
        first: Sequence(4_294_967_295),
        count: 65_535,
    };
    assert_eq!(read_message(&blocks(&[request]), 0), Ok((read, 9)));
}

#[test]
fn what_the_message_reader_refuses() {
    let cases: &[(&[u8], usize, u8)] = &[
        (b"", 0, 1),
        (b"", 5, 1),
        (&[0; 1473], 0, 2),
        (&[0; 1473], 2000, 2),
        (b"\0\x01X", 0, 3),
        (b"\0\x01R", 3, 4),
        (b"\0\x01R", 4, 4),
        (b"\0\x01R", usize::MAX, 4),
        (b"\0\x01R", 2, 4),
        (b"\0\x02R", 0, 4),
        (b"\0\0", 0, 4),
        (b"\0\x02R ", 0, 4),
        (b"\0\x02O ", 0, 4),
        (&blocks(&[&LOGIN[..26]]), 0, 4),
        (&blocks(&[b"R", b"L user password  8841      "]), 3, 5),
        (&blocks(&[b"R", b"T\0\0\0\0\0\x01"]), 3, 6),
        (&blocks(&[b"R", b"T\0\0\0\x01\0\0"]), 3, 6),
    ];
    for (packet, place, refusal) in cases {
        let read = read_message(packet, *place);
        assert_eq!(number(read), *refusal, "{packet:?} at {place}");
    }
}

#[test]
fn the_message_reader_refuses_as_the_packet_reader_whatever_the_place() {
    let nought = b"T\0\0\0\0\0\x01";
    let cases: &[(&[u8], u8)] = &[
        (b"\0\x01R\0", 4),
        (b"\0\x01R\0\0", 4),
        (&[&blocks(&[b"R", b"X"])[..], b"\0\x09"].concat(), 4),
        (&blocks(&[b"R", b"X"]), 3),
        (&blocks(&[b"R", b"O "]), 4),
        (&blocks(&[b"R", b"L user password  8841      "]), 5),
        (&blocks(&[b"R", nought, b"X"]), 6),
        (&blocks(&[LOGIN, NAMELESS]), 6),
        (&blocks(&[NAMELESS, LOGIN]), 6),
    ];
    for (packet, refusal) in cases {
        assert_eq!(number(read_up(packet)), *refusal, "{packet:?}");
        for place in 0..packet.len() + 2 {
            let read = read_message(packet, place);
            assert_eq!(number(read), *refusal, "{packet:?} at {place}");
        }
    }
}

#[test]
fn a_block_inside_a_message_is_not_the_packet_s() {
    let packet = b"\0\x04U\0\x01R";
    assert_eq!(
        read_message(packet, 0),
        Ok((Up::Unsequenced(b"\0\x01R"), 6))
    );
    for place in 1..8 {
        assert_eq!(number(read_message(packet, place)), 4, "{place}");
    }
}

fn write(message: Up) -> Result<Vec<u8>, u8> {
    written(|slip| write_message(&message, slip))
}

fn request(first: u64, count: u16) -> Up<'static> {
    let first = Sequence(first);
    Up::Request { first, count }
}

fn login(user: &[u8; 6], password: &[u8; 10], session: &[u8; 10]) -> Up<'static> {
    Up::Login {
        user: User(*user),
        password: Password(*password),
        session: Name(*session),
    }
}

#[test]
fn what_a_writer_refuses() {
    let cases = [
        (Up::Unsequenced(&[0; 1470]), 2),
        (Up::Unsequenced(&[0; 70_000]), 2),
        (login(b" user1", b"          ", b"          "), 5),
        (login(b"user1 ", b"pass word ", b"          "), 5),
        (login(b"user1 ", b"          ", b"      8841"), 5),
        (login(b"user1\n", b"          ", b"8841      "), 5),
        (login(b"      ", b"pass-word ", b"8841      "), 5),
        (login(b"      ", b" password ", b"8841      "), 5),
        (login(b"      ", b"password  ", b"      8841"), 5),
        (login(b"      ", b"password  ", b"8841      "), 6),
        (login(b"      ", b"          ", b"          "), 6),
        (request(0, 1), 6),
        (request(1, 0), 6),
        (request(1 << 32, 0), 6),
        (request(1 << 32, 1), 7),
        (request(u64::MAX, 1), 7),
    ];
    for (message, refusal) in cases {
        assert_eq!(write(message), Err(refusal), "{message:?}");
    }
}

/// Adds a message behind the slip's first `used` bytes: the packet, or the refusal's number. All
/// bytes but those of the message, and on a refusal those too, must be as before.
fn add(slip: &[u8], used: usize, message: Up) -> Result<Vec<u8>, u8> {
    let mut after = slip.to_vec();
    match Packet::begun(&mut after, used).and_then(|mut packet| packet.add(&message)) {
        Ok(bytes) => {
            assert_eq!(after[..used], slip[..used]);
            assert_eq!(after[bytes..], slip[bytes..]);
            after.truncate(bytes);
            Ok(after)
        }
        Err(refusal) => {
            assert_eq!(after, slip);
            Err(refusal.number())
        }
    }
}

#[test]
fn a_packet_is_put_together_message_by_message() {
    let whole = blocks(&[LOGIN, b"T\0\0\0\x03\0\x02", b"U", b"U\0\n!", b"R", b"O"]);
    let mut slip = vec![0xee; whole.len()];
    let mut place = 0;
    while place < whole.len() {
        let (message, next) = read_message(&whole, place).unwrap();
        assert_eq!(add(&slip[..next - 1], place, message), Err(9));
        let packet = add(&slip, place, message).unwrap();
        assert_eq!(packet, whole[..next]);
        slip[..next].copy_from_slice(&packet);
        place = next;
    }
    assert_eq!(add(&slip, place, Up::Heartbeat), Err(9));
    let mut packet = Packet::begun(&mut slip, 0).unwrap();
    assert_eq!(packet.add(&Up::Logoff), Ok(3));
    assert_eq!(packet.add(&Up::Heartbeat), Ok(6));
    assert_eq!(slip[..6], *b"\0\x01O\0\x01R");
}

#[test]
fn what_adding_refuses() {
    let nothing = request(0, 1);
    let nameless = login(b"      ", b"password  ", b"8841      ");
    let over = Up::Unsequenced(&[0; 1470]);
    let full = blocks(&[&[b'U'; 1470]]);
    let cases: &[(&[u8], usize, Up, u8)] = &[
        // past the end, before anything else
        (b"", 1, Up::Heartbeat, 4),
        (b"\0\x01X", 4, over, 4),
        (b"\0\x01X", usize::MAX, over, 4),
        // what is there, before the message
        (b"\0\x01X", 3, over, 3),
        (b"\0\x01R", 2, over, 4),
        (b"\0\x01R", 1, Up::Heartbeat, 4),
        (b"\0\x02R ", 4, nothing, 4),
        (&blocks(&[b"L user password  8841      "]), 29, nothing, 5),
        (&blocks(&[b"T\0\0\0\0\0\x01"]), 9, over, 6),
        (&blocks(&[NAMELESS]), 29, over, 6),
        (&[0; 1473], 1473, nothing, 2),
        // the whole
        (b"", 0, over, 2),
        (b"\0\x01R", 3, Up::Unsequenced(&[0; 1467]), 2),
        (&full, 1472, nothing, 2),
        (b"\0\x01R", 3, nothing, 6),
        (b"\0\x01R", 3, request(1 << 32, 1), 7),
        (&full, 1472, nameless, 2),
        (b"", 0, nameless, 6),
        (b"\0\x01R", 3, nameless, 6),
        (&[&b"\0\x01R"[..], &[b'.'; 40]].concat(), 3, nameless, 6),
        // and then the room
        (b"\0\x01R", 3, Up::Unsequenced(&[0; 1466]), 9),
        (b"\0\x01R..", 3, Up::Logoff, 9),
        (b"..", 0, Up::Logoff, 9),
    ];
    for (slip, used, message, refusal) in cases {
        let added = add(slip, *used, *message);
        assert_eq!(
            added,
            Err(*refusal),
            "{message:?} behind {used} of {slip:?}"
        );
    }
}

#[test]
fn a_packet_is_filled_to_its_last_byte() {
    let slip = [&blocks(&[&[b'U'; 1467]])[..], b"......"].concat();
    assert_eq!(add(&slip, 1469, Up::Logoff).unwrap().len(), 1472);
    assert_eq!(add(&slip, 1469, Up::Unsequenced(b"!")), Err(2));
    assert_eq!(
        add(&slip, 0, Up::Unsequenced(&[7; 1469])).unwrap().len(),
        1472
    );
}

#[test]
fn what_is_read_is_written_again() {
    let longest = [b"U", &[0xff; 1469][..]].concat();
    let messages: &[&[u8]] = &[
        LOGIN,
        b"Lu                         ",
        b"T\0\0\0\x01\0\x01",
        b"T\xff\xff\xff\xff\xff\xff",
        b"U",
        &longest,
        b"R",
        b"O",
    ];
    for message in messages {
        let packet = blocks(&[message]);
        let (read, next) = read_message(&packet, 0).unwrap();
        assert_eq!(next, packet.len());
        assert_eq!(write(read), Ok(packet));
    }
}
