//! UFO packets from the server: every refusal of reader and writer, and the way there and back.

mod common;

use common::{number, ufo_e, ufo_s, written};
use ordinary::kinds::{Name, Reason, Sequence};
use ordinary::ufo::{read_down, write_down, Down};

fn accept(session: &[u8; 10], next: u32) -> Vec<u8> {
    [b"A", &session[..], &next.to_be_bytes()].concat()
}

#[test]
fn what_is_taken() {
    assert_eq!(
        read_down(&accept(b"Ab9       ", u32::MAX)),
        Ok(Down::Accept {
            session: Name(*b"Ab9       "),
            next: Sequence(4_294_967_295),
        })
    );
    for reason in [Reason::NOT_AUTHORISED, Reason::NO_SESSION] {
        let packet = [b'J', reason.0];
        assert_eq!(read_down(&packet), Ok(Down::Reject { reason }));
    }
    let longest = ufo_s(1, &[&[7; 1463]]);
    assert_eq!(longest.len(), 1472);
    assert_eq!(
        read_down(&longest),
        Ok(Down::Sequenced {
            first: Sequence(1),
            count: 1,
            blocks: &longest[7..],
        })
    );
    let total = 4_294_967_294;
    assert_eq!(read_down(&ufo_e(u32::MAX - 1)), Ok(Down::End { total }));
}

#[test]
fn what_a_reader_refuses() {
    let over = [&ufo_s(1, &[&[7; 1463]])[..], b"!"].concat();
    let cases: &[(&[u8], u8)] = &[
        (b"", 1),
        (&over, 2),
        (&[0; 1473], 2),
        (&ufo_s(1, &[&[7; 8963]]), 2), // of 8,972 bytes, which only MEMX-UDP may have
        (b"X", 3),
        (b"s\0\0\0\x01\0\0", 3),
        (b"\0", 3),
        (b"A", 4),
        (&accept(b"8841      ", 1)[..14], 4),
        (&[&accept(b"8841      ", 1)[..], b"!"].concat(), 4),
        (b"J", 4),
        (b"JA ", 4),
        (b"S", 4),
        (b"S\0\0\0\x01\0", 4),
        (b"S\0\0\0\x01\0\x01", 4),
        (b"S\0\0\0\x01\0\x01\0", 4),
        (b"S\0\0\0\x01\0\x01\0\x02a", 4),
        (b"S\0\0\0\x01\0\x01\0\x02abc", 4),
        (b"S\0\0\0\x01\0\0\0\0", 4),
        (b"S\0\0\0\x01\xff\xff\0\0", 4),
        (b"E", 4),
        (b"E\0\0\0", 4),
        (b"E\0\0\0\0\0", 4),
        (&accept(b" 8841     ", 1), 5),
        (&accept(b"88 41     ", 1), 5),
        (&accept(b"8841\n     ", 1), 5),
        (&accept(b"88_1      ", 1), 5),
        (b"JX", 5),
        (b"Ja", 5),
        (&accept(b"          ", 1), 6),
        (&accept(b"8841      ", 0), 6),
        (&ufo_s(0, &[]), 6),
        (&ufo_s(0, &[b"a"]), 6),
        (&ufo_s(u32::MAX, &[b"a"]), 7),
        (&ufo_s(u32::MAX - 1, &[b"a", b"b"]), 7),
        (&ufo_e(u32::MAX), 7),
    ];
    for (packet, refusal) in cases {
        assert_eq!(number(read_down(packet)), *refusal, "{packet:?}");
    }
}

#[test]
fn the_lower_check_comes_first() {
    // framing before number, alphabet before number, number's zero before its bound
    assert_eq!(number(read_down(b"S\0\0\0\0\0\x01")), 4);
    assert_eq!(number(read_down(&accept(b" 8841     ", 0))), 5);
    assert_eq!(number(read_down(b"S\xff\xff\xff\xff\0\x01")), 4);
}

fn write(packet: Down) -> Result<Vec<u8>, u8> {
    written(|slip| write_down(&packet, slip))
}

#[test]
fn what_a_writer_refuses() {
    let accept = |session: &[u8; 10], next| Down::Accept {
        session: Name(*session),
        next: Sequence(next),
    };
    let data = |first, count, blocks| Down::Sequenced {
        first: Sequence(first),
        count,
        blocks,
    };
    const TWO_TO_32: u64 = 1 << 32;
    let cases = [
        (data(1, 1, &[0; 1466]), 2),
        (data(0, 1, &[0; 1466]), 2),
        (data(1, 1, b""), 4),
        (data(1, 0, b"\0\0"), 4),
        (data(0, 1, b"\0\x02a"), 4),
        (data(TWO_TO_32, 2, b"\0\0"), 4),
        (accept(b"8 8       ", 0), 5),
        (accept(b"8 8       ", TWO_TO_32), 5),
        (
            Down::Reject {
                reason: Reason(b'B'),
            },
            5,
        ),
        (
            Down::Reject {
                reason: Reason(b'\n'),
            },
            5,
        ),
        (accept(b"          ", 1), 6),
        (accept(b"          ", TWO_TO_32), 6),
        (accept(b"8841      ", 0), 6),
        (data(0, 0, b""), 6),
        (data(0, 1, b"\0\0"), 6),
        (accept(b"8841      ", TWO_TO_32), 7),
        (accept(b"8841      ", u64::MAX), 7),
        (data(TWO_TO_32 - 1, 1, b"\0\0"), 7),
        (data(TWO_TO_32, 0, b""), 7),
        (data(u64::MAX, 1, b"\0\0"), 7),
        (Down::End { total: u64::MAX }, 7),
        (
            Down::End {
                total: TWO_TO_32 - 1,
            },
            7,
        ),
    ];
    for (packet, refusal) in cases {
        assert_eq!(write(packet), Err(refusal), "{packet:?}");
    }
}

#[test]
fn what_is_read_is_written_again() {
    for packet in [
        accept(b"8841      ", 1),
        accept(b"ABCDEFghij", u32::MAX),
        b"JA".to_vec(),
        b"JS".to_vec(),
        ufo_s(1, &[]),
        ufo_s(u32::MAX, &[]),
        ufo_s(6, &[b"HI", b""]),
        ufo_s(u32::MAX - 2, &[b"", b"\n"]),
        ufo_s(1, &[&[0xff; 1463]]),
        ufo_s(1, &[b"".as_slice(); 732]),
        ufo_e(0),
        ufo_e(u32::MAX - 1),
    ] {
        let read = read_down(&packet).unwrap();
        assert_eq!(write(read), Ok(packet));
    }
}
