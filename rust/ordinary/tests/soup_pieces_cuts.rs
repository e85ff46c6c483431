//! Soup as it comes off the wire: the same bytes give the same packets, wherever they are cut.

mod common;

use common::stream::{refused, taken, Machine, Out, Stream};
use common::{soup, soup_a, soup_l, Dice};
use ordinary::kinds::Sequence;

/// A bit of everything: refused, numbered and overlong packets, and at the end an unfinished one.
fn mixed() -> Vec<u8> {
    let overlong = [b'y'; 4100];
    [
        b"S\n\n",
        &soup_a("8841", "0 1")[..],
        &soup_a("8841", "00"),
        &soup_a("8841", "18446744073709551612"),
        b"Sone\nH\n+\nX\n",
        &soup(b'S', &[b'x'; 4096]),
        &overlong,
        b"\n",
        &soup_a("8841", "1"),
        b"Sthree\n",
        &overlong[..4098],
        b"\nS\n\n",
        &soup_l("me", "secret", "8841", "00000000000000000042"),
        &soup_l("", "secret", "8841", "0"),
        b"Unfinished",
    ]
    .concat()
}

/// What it hands out.
fn handed_out() -> Vec<Out> {
    let overlong = [b'y'; 4098];
    vec![
        refused(b"S\n", 16),
        refused(b"\n", 3),
        refused(&soup_a("8841", "0 1"), 5),
        refused(&soup_a("8841", "00"), 6),
        taken(&soup_a("8841", "18446744073709551612"), 0),
        taken(b"Sone\n", u64::MAX - 3),
        taken(b"H\n", 0),
        taken(b"+\n", 0),
        refused(b"X\n", 3),
        taken(&soup(b'S', &[b'x'; 4096]), u64::MAX - 2),
        refused(&overlong, 2),
        refused(&soup_a("8841", "1"), 16),
        taken(b"Sthree\n", u64::MAX - 1),
        refused(&overlong, 2),
        refused(b"S\n", 7),
        refused(b"\n", 3),
        taken(&soup_l("me", "secret", "8841", "00000000000000000042"), 0),
        refused(&soup_l("", "secret", "8841", "0"), 6),
    ]
}

/// Feeds the bytes, cut where told, and asks for what the machine makes of them.
fn cut_at(bytes: &[u8], cuts: &[usize], outs: &[Out], machine: &Machine) {
    let mut stream = Stream::begun();
    assert!(stream.feed_cut(bytes, cuts) == outs, "cut at {cuts:?}");
    assert_eq!(stream.state(), machine.state(), "cut at {cuts:?}");
}

#[test]
fn a_stream_cut_in_two_anywhere() {
    let (bytes, mut machine) = (mixed(), Machine::default());
    let outs = machine.feed(&bytes);
    assert_eq!(outs, handed_out());
    assert_eq!(machine.state(), (&b"Unfinished"[..], false, u64::MAX));
    for cut in 0..=bytes.len() {
        cut_at(&bytes, &[cut], &outs, &machine);
    }
}

#[test]
fn a_stream_in_pieces_of_every_length() {
    let (bytes, mut machine) = (mixed(), Machine::default());
    let outs = machine.feed(&bytes);
    let lengths = (1..=20).chain([63, 64, 65, 1400, 4096, 4097, 4098, 4099, 8196]);
    for length in lengths {
        let cuts: Vec<usize> = (length..bytes.len()).step_by(length).collect();
        cut_at(&bytes, &cuts, &outs, &machine);
    }
}

#[test]
fn a_short_stream_cut_in_three_anywhere() {
    let bytes = [&b"S\n"[..], &soup_a("8841", "09"), b"Sa\n\nSb\nHH\nSc\nS"].concat();
    let mut machine = Machine::default();
    let outs = machine.feed(&bytes);
    assert_eq!((outs.len(), machine.state()), (7, (&b"S"[..], false, 12)));
    for first in 0..=bytes.len() {
        for second in first..=bytes.len() {
            cut_at(&bytes, &[first, second], &outs, &machine);
        }
    }
}

#[test]
fn one_byte_at_a_time_with_the_buffer_looked_at() {
    let bytes = mixed();
    let (mut stream, mut machine) = (Stream::begun(), Machine::default());
    for byte in bytes.chunks(1) {
        assert_eq!(stream.feed(byte), machine.feed(byte));
        assert_eq!(stream.state(), machine.state());
    }
}

/// A line of any kind, with its linefeed; mostly a packet.
fn line(dice: &mut Dice) -> Vec<u8> {
    let length = match dice.below(24) {
        0 => 4090 + dice.below(12),
        1 => dice.below(10_000),
        _ => dice.below(30),
    };
    let digits = dice.pick(&["1", "0", "42", "0042", "x", "18446744073709551614"]);
    match dice.below(8) {
        0 => soup_a(dice.pick(&["8841", "8841", "", "8 1"]), digits),
        1 => soup_l(dice.pick(&["me", "me", ""]), "secret", "8841", digits),
        2 => soup(dice.pick(b"HZROJX"), &b"ASx"[..dice.below(3)]),
        3 => b"\n".to_vec(),
        _ => soup(
            dice.pick(b"SSSU+"),
            &vec![dice.pick(b"x\0\x0b\x8a"); length],
        ),
    }
}

/// A stream in any state that hangs together, one kept byte in two being a type.
fn any_stream(dice: &mut Dice) -> Stream {
    let next = dice.pick(&[0, 0, 1, 500, u64::MAX - 2, u64::MAX - 1, u64::MAX]);
    let mut stream = Stream::from(next);
    if dice.one_in(6) {
        stream.pieces.dropping = true;
    } else {
        let kept = dice.pick(&[0, 0, 1, 2, 31, 4096, 4097]);
        stream.buffer[..kept].fill(dice.pick(b"SAH\0"));
        stream.pieces.kept = kept;
    }
    stream
}

#[test]
fn any_stream_from_any_state_goes_as_byte_by_byte() {
    let mut dice = Dice::seeded(5);
    for case in 0..2000 {
        let mut stream = any_stream(&mut dice);
        let mut machine = Machine::at(&stream);
        for _ in 0..1 + dice.below(4) {
            let lines = dice.below(6);
            let mut piece: Vec<u8> = (0..lines).flat_map(|_| line(&mut dice)).collect();
            if dice.one_in(2) {
                piece.truncate(dice.below(piece.len() + 1));
            }
            assert_eq!(stream.feed(&piece), machine.feed(&piece), "case {case}");
            assert_eq!(stream.state(), machine.state(), "case {case}");
        }
    }
}

#[test]
fn an_empty_piece_changes_nothing() {
    let mut dice = Dice::seeded(6);
    for _ in 0..200 {
        let mut stream = any_stream(&mut dice);
        let (pieces, buffer) = (stream.pieces, stream.buffer.clone());
        assert_eq!(stream.feed(b""), []);
        assert_eq!(stream.pieces, pieces);
        assert!(stream.buffer == buffer);
    }
}

#[test]
fn only_kept_bytes_count_as_state() {
    let (mut one, mut other) = (Stream::from(1), Stream::from(1));
    one.feed(b"Sfirst, and long\nSk");
    other.pieces.next = Sequence(2);
    other.feed(b"Sk");
    assert_eq!(one.state(), other.state());
    assert_ne!(one.buffer, other.buffer);
    let rest = [b"ept\nS\n", &[b'x'; 5000][..]].concat();
    assert_eq!(one.feed(&rest), other.feed(&rest));
    assert_eq!(one.state(), other.state());
}
