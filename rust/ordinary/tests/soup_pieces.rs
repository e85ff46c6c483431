//! Soup as it comes off the wire: which packets are handed out, numbered and refused.

mod common;

use common::stream::{refused, taken, Stream};
use common::{soup, soup_a, soup_l};

/// A byte of an overlong packet.
const X: u8 = b'x';

#[test]
fn a_session_has_its_messages_numbered_from_login_accepted_on() {
    let accepted = soup_a("8841", "7");
    let mut stream = Stream::begun();
    assert_eq!(stream.feed(&accepted), [taken(&accepted, 0)]);
    let rest = b"+about\nShello\nH\nS\nS\x00\xff\nZ\n";
    let expected = [
        taken(b"+about\n", 0),
        taken(b"Shello\n", 7),
        taken(b"H\n", 0),
        taken(b"S\n", 8),
        taken(b"S\x00\xff\n", 9),
        taken(b"Z\n", 0),
    ];
    assert_eq!(stream.feed(rest), expected);
    assert_eq!(stream.state(), (&b""[..], false, 10));
}

#[test]
fn an_unfinished_packet_is_kept_until_its_linefeed_comes() {
    let mut stream = Stream::from(3);
    assert_eq!(stream.feed(b"She"), []);
    assert_eq!(stream.state(), (&b"She"[..], false, 3));
    assert_eq!(stream.feed(b"llo"), []);
    assert_eq!(stream.state(), (&b"Shello"[..], false, 3));
    assert_eq!(stream.feed(b"\nS"), [taken(b"Shello\n", 3)]);
    assert_eq!(stream.state(), (&b"S"[..], false, 4));
}

#[test]
fn a_call_stops_behind_the_packet_that_it_hands_out() {
    let mut stream = Stream::from(1);
    let mut piece = &b"Sa\n\nSb\nS"[..];
    assert_eq!(stream.take(&mut piece), Some(taken(b"Sa\n", 1)));
    assert_eq!(piece, b"\nSb\nS");
    assert_eq!(stream.take(&mut piece), Some(refused(b"\n", 3)));
    assert_eq!(piece, b"Sb\nS");
    assert_eq!(stream.take(&mut piece), Some(taken(b"Sb\n", 2)));
    assert_eq!(piece, b"S");
    assert_eq!(stream.take(&mut piece), None);
    assert_eq!((piece, stream.kept()), (&b""[..], &b"S"[..]));
}

#[test]
fn packets_from_the_client_are_handed_out_like_the_others() {
    let login = soup_l("me", "secret", "", "0");
    for next in [0, 1, u64::MAX] {
        for packet in [&login[..], b"U\n", b"Uhello\n", b"R\n", b"O\n"] {
            let mut stream = Stream::from(next);
            assert_eq!(stream.feed(packet), [taken(packet, 0)]);
            assert_eq!(stream.pieces.next.0, next);
        }
    }
}

#[test]
fn an_s_before_login_accepted_is_16() {
    let mut stream = Stream::begun();
    assert_eq!(stream.feed(b"S\n"), [refused(b"S\n", 16)]);
    assert_eq!(stream.feed(b"Sab\nH\n")[0], refused(b"Sab\n", 16));
    assert_eq!(stream.state(), (&b""[..], false, 0));
    let accepted = soup_a("8841", "5");
    assert_eq!(stream.feed(&accepted), [taken(&accepted, 0)]);
    assert_eq!(stream.feed(b"S\n"), [taken(b"S\n", 5)]);
}

#[test]
fn a_second_login_accepted_is_16_and_changes_no_number() {
    for next in [1, 2, 900, u64::MAX - 1, u64::MAX] {
        for again in ["1", "900", "18446744073709551615"] {
            let mut stream = Stream::from(next);
            let accepted = soup_a("8841", again);
            assert_eq!(stream.feed(&accepted), [refused(&accepted, 16)]);
            assert_eq!(stream.pieces.next.0, next);
        }
    }
}

#[test]
fn the_last_message_has_the_number_before_the_last() {
    let mut stream = Stream::from(u64::MAX - 2);
    assert_eq!(stream.feed(b"S1\n"), [taken(b"S1\n", u64::MAX - 2)]);
    assert_eq!(stream.feed(b"S2\n"), [taken(b"S2\n", u64::MAX - 1)]);
    for _ in 0..3 {
        assert_eq!(stream.feed(b"S3\n"), [refused(b"S3\n", 7)]);
        assert_eq!(stream.feed(b"H\n"), [taken(b"H\n", 0)]);
        assert_eq!(stream.state(), (&b""[..], false, u64::MAX));
    }
    let mut stream = Stream::begun();
    let accepted = soup_a("8841", "18446744073709551615");
    assert_eq!(stream.feed(&accepted), [taken(&accepted, 0)]);
    assert_eq!(stream.feed(b"S\n"), [refused(b"S\n", 7)]);
    assert_eq!(stream.pieces.next.0, u64::MAX);
}

/// Packets that the reader refuses, each with the number; no packet that ends at its first linefeed
/// is 1 or 8.
fn unreadable() -> Vec<(Vec<u8>, u8)> {
    vec![
        (b"\n".to_vec(), 3),
        (b"X\n".to_vec(), 3),
        (b"\0\xff\n".to_vec(), 3),
        (b"H \n".to_vec(), 4),
        (b"J\n".to_vec(), 4),
        (soup_a("8841", "1")[1..].to_vec(), 3),
        ([&soup_a("8841", "1")[..31], b" \n"].concat(), 4),
        ([&soup_a("8841", "1")[..30], b"\n"].concat(), 4),
        (b"JX\n".to_vec(), 5),
        (soup_a("8841", "0 1"), 5),
        (soup_a("88 1", "1"), 5),
        (soup_a("", "1"), 6),
        (soup_a("8841", ""), 6),
        (soup_a("8841", "0"), 6),
        (soup_a("8841", "00000000000000000000"), 6),
        (soup_a("8841", "18446744073709551616"), 7),
        (soup_l("", "secret", "8841", "0 1"), 5),
        (soup_l("", "secret", "8841", "01"), 6),
        (soup_l("", "secret", "8841", "1"), 6),
        (soup_l("", "", "", "99999999999999999999"), 6),
        (soup_l("me", "secret", "", "99999999999999999999"), 7),
    ]
}

#[test]
fn what_the_reader_refuses_is_used_up_and_leaves_the_count() {
    for next in [0, 1, 77, u64::MAX - 1, u64::MAX] {
        for (packet, why) in unreadable() {
            let mut stream = Stream::from(next);
            assert_eq!(stream.feed(&packet), [refused(&packet, why)]);
            assert_eq!(stream.state(), (&b""[..], false, next));
            let twice = [&packet[..], b"R\n", &packet].concat();
            let expected = [
                refused(&packet, why),
                taken(b"R\n", 0),
                refused(&packet, why),
            ];
            assert_eq!(stream.feed(&twice), expected);
            assert_eq!(stream.state(), (&b""[..], false, next));
        }
    }
}

#[test]
fn messages_are_numbered_past_refused_packets() {
    let mut stream = Stream::begun();
    for (packet, why) in unreadable() {
        assert_eq!(stream.feed(&packet), [refused(&packet, why)]);
    }
    let accepted = soup_a("8841", "41");
    assert_eq!(stream.feed(&accepted), [taken(&accepted, 0)]);
    for (number, (packet, why)) in (41..).zip(unreadable()) {
        assert_eq!(stream.feed(&packet), [refused(&packet, why)]);
        assert_eq!(stream.feed(b"S\n"), [taken(b"S\n", number)]);
    }
}

#[test]
fn the_longest_packet_is_taken() {
    let longest = soup(b'S', &[X; 4096]);
    assert_eq!(longest.len(), 4098);
    let mut stream = Stream::from(1);
    assert_eq!(stream.feed(&longest), [taken(&longest, 1)]);
    assert_eq!(stream.feed(&longest[..4097]), []);
    assert_eq!(stream.state(), (&longest[..4097], false, 2));
    assert_eq!(stream.feed(b"\n"), [taken(&longest, 2)]);
    // whatever its type is, the reader and not its length has the say
    let unknown = soup(b'X', &[X; 4096]);
    assert_eq!(stream.feed(&unknown), [refused(&unknown, 3)]);
}

#[test]
fn an_overlong_packet_is_refused_once_at_its_4_098th_byte() {
    let overlong = [&[b'S'; 4098][..], &[X; 9000], b"\nS\n"].concat();
    let mut stream = Stream::from(6);
    let mut piece = &overlong[..];
    let expected = Some(refused(&overlong[..4098], 2));
    assert_eq!(stream.take(&mut piece), expected);
    assert_eq!(piece, &overlong[4098..], "just there");
    assert_eq!(stream.state(), (&b""[..], true, 6));
    assert_eq!(stream.take(&mut piece), Some(taken(b"S\n", 6)));
    assert_eq!(stream.state(), (&b""[..], false, 7));

    let mut stream = Stream::from(6);
    assert_eq!(stream.feed(&overlong[..4097]), []);
    assert_eq!(stream.feed(&[X]).len(), 1, "before anything follows");
    assert_eq!(stream.state(), (&b""[..], true, 6));
}

#[test]
fn an_overlong_packet_is_2_whatever_its_type_and_the_count() {
    for next in [0, 1, u64::MAX] {
        for kind in *b"+ASULX\0" {
            let mut stream = Stream::from(next);
            let overlong = vec![kind; 4098];
            assert_eq!(stream.feed(&overlong), [refused(&overlong, 2)]);
            assert_eq!(stream.state(), (&b""[..], true, next));
        }
    }
}

#[test]
fn the_rest_of_an_overlong_packet_is_dropped_up_to_its_linefeed() {
    let overlong = [X; 4098];
    for rest in [
        &[][..],
        b"S",
        b"Shello",
        &[X; 4097],
        &[X; 4098],
        &[X; 20_000],
    ] {
        let mut stream = Stream::from(1);
        stream.feed(&overlong);
        let left = stream.buffer.clone();
        for piece in rest.chunks(4099).chain([&[][..]]) {
            assert_eq!(stream.feed(piece), []);
            assert_eq!(stream.state(), (&b""[..], true, 1));
        }
        assert_eq!(stream.feed(b"\n"), [], "its linefeed is dropped, too");
        assert_eq!(stream.state(), (&b""[..], false, 1));
        assert!(stream.buffer == left, "nothing was laid into the buffer");
        assert_eq!(stream.feed(b"\n"), [refused(b"\n", 3)]);
        assert_eq!(stream.feed(b"S\n"), [taken(b"S\n", 1)]);
    }
}

#[test]
fn one_overlong_packet_after_another() {
    let mut stream = Stream::from(1);
    let overlong = [&[X; 5000][..], b"\n"].concat();
    let two = [&overlong[..], &overlong, b"Sa\n", &overlong, b"Sb"].concat();
    let start = refused(&[X; 4098], 2);
    let expected = [start.clone(), start.clone(), taken(b"Sa\n", 1), start];
    assert_eq!(stream.feed(&two), expected);
    assert_eq!(stream.state(), (&b"Sb"[..], false, 2));
}
