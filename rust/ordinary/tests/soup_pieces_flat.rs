//! Soup as it comes off the wire, on the flat face.

mod common;

use common::{soup, soup_a};
use ordinary::flat::*;

/// A stream whose next `S` has this number.
fn from(next: u64) -> hp_pieces {
    hp_pieces {
        next,
        ..hp_pieces::default()
    }
}

/// A buffer in which these bytes are kept.
fn buffer(kept: &[u8]) -> Vec<u8> {
    let mut buffer = vec![0xee; 4098];
    buffer[..kept.len()].copy_from_slice(kept);
    buffer
}

/// The answer where a packet is taken, which begins behind so many bytes of the piece.
fn taken(packet: &[u8], place: usize, number: u64, pieces: hp_pieces) -> hp_piece {
    hp_piece {
        refusal: 0,
        place: place as u64,
        what: 1,
        why: 0,
        number,
        bytes: packet.len() as u64,
        packet: hp_soup_read(packet).packet,
        pieces,
    }
}

/// The answer where a packet is refused.
fn refused(why: u64, bytes: u64, place: u64, pieces: hp_pieces) -> hp_piece {
    hp_piece {
        place,
        what: 2,
        why,
        bytes,
        pieces,
        ..hp_piece::default()
    }
}

/// The answer where the piece is used up.
fn used_up(place: u64, pieces: hp_pieces) -> hp_piece {
    hp_piece {
        place,
        pieces,
        ..hp_piece::default()
    }
}

/// The answer where the call is refused.
fn no(refusal: u64, pieces: hp_pieces) -> hp_piece {
    hp_piece {
        refusal,
        pieces,
        ..hp_piece::default()
    }
}

#[test]
fn packets_have_their_fields_and_numbers() {
    let accepted = soup_a("8841", "7");
    let piece = [&accepted[..], b"Sab\nH\n"].concat();
    let mut lent = buffer(b"");
    let answer = hp_soup_take(hp_pieces::default(), &mut lent, &piece, 0);
    assert_eq!(answer, taken(&accepted, 32, 0, from(7)));
    assert_eq!((answer.packet.r#type, answer.packet.number), (b'A', 7));
    assert!(lent == buffer(&accepted));

    let answer = hp_soup_take(from(7), &mut lent, &piece, 32);
    assert_eq!(answer, taken(b"Sab\n", 36, 7, from(8)));
    let fields = hp_packet {
        r#type: b'S',
        start: 1,
        length: 2,
        ..hp_packet::default()
    };
    assert_eq!(answer.packet, fields);
    assert_eq!(lent[..4], *b"Sab\n");
    assert_eq!(lent[4..], buffer(&accepted)[4..]);

    let answer = hp_soup_take(from(8), &mut lent, &piece, 36);
    assert_eq!(answer, taken(b"H\n", 38, 0, from(8)));
    let answer = hp_soup_take(from(8), &mut lent, &piece, 38);
    assert_eq!(answer, used_up(38, from(8)));
}

#[test]
fn kept_bytes_stand_before_the_piece() {
    let kept = hp_pieces { kept: 2, ..from(3) };
    let mut lent = buffer(b"Sa");
    let answer = hp_soup_take(kept, &mut lent, b"..bc\n", 2);
    assert_eq!(answer, taken(b"Sabc\n", 5, 3, from(4)));
    assert!(lent == buffer(b"Sabc\n"));

    let mut lent = buffer(b"Sa");
    let answer = hp_soup_take(kept, &mut lent, b"..bc", 2);
    let longer = hp_pieces { kept: 4, ..from(3) };
    assert_eq!(answer, used_up(4, longer));
    assert!(lent == buffer(b"Sabc"));
}

#[test]
fn refused_packets_have_no_fields() {
    let number = soup_a("8841", "1");
    let overlong = [b'S'; 4100];
    let dropping = |next| hp_pieces {
        dropping: 1,
        ..from(next)
    };
    for (piece, next, answer) in [
        (&b"S\nS\n"[..], 0, refused(16, 2, 2, from(0))),
        (&number, 4, refused(16, 32, 32, from(4))),
        (b"Sab\n", u64::MAX, refused(7, 4, 4, from(u64::MAX))),
        (b"\n", 4, refused(3, 1, 1, from(4))),
        (b"Hx\n", 4, refused(4, 3, 3, from(4))),
        (b"JX\n", 4, refused(5, 3, 3, from(4))),
        (&soup_a("", "1"), 4, refused(6, 32, 32, from(4))),
        (&overlong, 4, refused(2, 4098, 4098, dropping(4))),
    ] {
        let mut lent = buffer(b"");
        assert_eq!(hp_soup_take(from(next), &mut lent, piece, 0), answer);
        assert!(lent == buffer(&piece[..answer.bytes as usize]));
    }
}

#[test]
fn dropping_leaves_the_buffer() {
    let dropping = hp_pieces {
        dropping: 1,
        ..from(4)
    };
    let mut lent = buffer(b"what stood there");
    let answer = hp_soup_take(dropping, &mut lent, b"no end", 1);
    assert_eq!(answer, used_up(6, dropping));
    let answer = hp_soup_take(dropping, &mut lent, b"an end\n", 0);
    assert_eq!(answer, used_up(7, from(4)));
    assert!(lent == buffer(b"what stood there"));
    let answer = hp_soup_take(dropping, &mut lent, b"an end\nS!\n", 0);
    assert_eq!(answer, taken(b"S!\n", 10, 4, from(5)));
    assert_eq!(lent[..16], *b"S!\nt stood there");
}

#[test]
fn a_place_past_the_end_is_4_and_one_at_the_end_is_not() {
    let kept = hp_pieces { kept: 2, ..from(3) };
    for piece in [&b""[..], b"\n", b"bc\nS\n"] {
        let length = piece.len() as u64;
        for place in [length + 1, length + 2, 1 << 32, u64::MAX] {
            let mut lent = buffer(b"Sa");
            assert_eq!(hp_soup_take(kept, &mut lent, piece, place), no(4, kept));
            assert!(lent == buffer(b"Sa"));
        }
        let mut lent = buffer(b"Sa");
        let answer = hp_soup_take(kept, &mut lent, piece, length);
        assert_eq!(answer, used_up(length, kept));
        assert!(lent == buffer(b"Sa"));
    }
}

#[test]
fn what_does_not_hang_together_is_10_before_the_place() {
    let keeping = |kept| hp_pieces { kept, ..from(3) };
    let flagged = |dropping| hp_pieces {
        dropping,
        ..from(3)
    };
    let kept_and_dropping = hp_pieces {
        dropping: 1,
        ..keeping(1)
    };
    let mut cases = vec![
        (from(3), vec![0; 4097]),
        (from(0), vec![]),
        (keeping(3), buffer(b"Sa\n")),
        (kept_and_dropping, buffer(b"S")),
    ];
    cases.extend([4098, 4099, 1 << 32, u64::MAX].map(|kept| (keeping(kept), buffer(b""))));
    cases.extend([2, 3, 128, 255].map(|dropping| (flagged(dropping), buffer(b""))));
    for (pieces, given) in cases {
        for place in [0, 1, 3, 4, u64::MAX] {
            let mut lent = given.clone();
            let answer = hp_soup_take(pieces, &mut lent, b"S!\n", place);
            assert_eq!(answer, no(10, pieces), "{pieces:?}");
            assert!(lent == given);
        }
    }
}

#[test]
fn a_longest_and_an_overlong_packet_end_at_the_last_byte() {
    let longest = soup(b'S', &[b'x'; 4096]);
    let kept = hp_pieces {
        kept: 4097,
        ..from(1)
    };
    let mut lent = buffer(&longest[..4097]);
    let answer = hp_soup_take(kept, &mut lent, b"\nrest", 0);
    assert_eq!(answer, taken(&longest, 1, 1, from(2)));
    let mut lent = buffer(&longest[..4097]);
    let answer = hp_soup_take(kept, &mut lent, b"xrest", 0);
    let dropping = hp_pieces {
        dropping: 1,
        ..from(1)
    };
    assert_eq!(answer, refused(2, 4098, 1, dropping));
}
