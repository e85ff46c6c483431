//! Soup as it comes off the wire: streams and buffers that don't hang together are 10.

mod common;

use common::number;
use common::stream::{taken, Stream};
use ordinary::kinds::Sequence;
use ordinary::soup_pieces::{Pieces, BUFFER};

/// Pieces that would be used up, would hand out a packet, and would end the dropping.
const PIECES: [&[u8]; 5] = [b"", b"S", b"S\n", b"\n", &[b'x'; 5000]];

/// A stream that keeps so many bytes.
fn keeping(kept: usize) -> Pieces {
    Pieces {
        kept,
        dropping: false,
        next: Sequence(3),
    }
}

/// Asks that a stream with this buffer is refused as 10 whatever comes, and that nothing changes.
fn is_broken(given: Pieces, lent: &[u8]) {
    assert_eq!(number(given.check(lent)), 10);
    for piece in PIECES {
        let (mut pieces, mut buffer, mut rest) = (given, lent.to_vec(), piece);
        assert_eq!(number(pieces.take(&mut buffer, &mut rest)), 10);
        assert_eq!((pieces, rest), (given, piece));
        assert!(buffer == lent);
    }
}

/// Asks that a stream with this buffer is not refused.
fn is_sound(given: Pieces, lent: &[u8]) {
    assert_eq!(number(given.check(lent)), 0);
    for mut piece in PIECES {
        let (mut pieces, mut buffer) = (given, lent.to_vec());
        assert_eq!(number(pieces.take(&mut buffer, &mut piece)), 0);
    }
}

#[test]
fn a_short_buffer() {
    for length in [0, 1, 2, 4096, 4097] {
        is_broken(Pieces::default(), &vec![0; length]);
        is_broken(keeping(length.saturating_sub(1)), &vec![0; length]);
    }
    is_sound(Pieces::default(), &[0; 4098]);
    assert_eq!(BUFFER, 4098);
}

#[test]
fn more_kept_than_an_unfinished_packet_can_have() {
    for kept in [4098, 4099, 5000, usize::MAX] {
        is_broken(keeping(kept), &[0; BUFFER]);
        is_broken(keeping(kept), &[0; 6000]);
    }
    is_sound(keeping(4097), &[0; BUFFER]);
}

#[test]
fn a_linefeed_among_the_kept() {
    for kept in [1, 2, 7, 8, 9, 100, 4097] {
        for place in [0, kept / 2, kept - 1] {
            let mut buffer = [b'x'; BUFFER];
            buffer[place] = b'\n';
            is_broken(keeping(kept), &buffer);
        }
        // behind what is kept one may stand
        let mut buffer = [b'x'; BUFFER];
        buffer[kept..].fill(b'\n');
        is_sound(keeping(kept), &buffer);
    }
}

#[test]
fn any_kept_while_dropping() {
    for kept in [0, 1, 2, 4097] {
        let dropping = Pieces {
            dropping: true,
            ..keeping(kept)
        };
        if kept == 0 {
            is_sound(dropping, &[b'x'; BUFFER]);
            is_sound(dropping, &[b'\n'; BUFFER]);
        } else {
            is_broken(dropping, &[b'x'; BUFFER]);
        }
    }
}

#[test]
fn a_longer_buffer_has_something_behind_it_that_stays() {
    let mut stream = Stream::from(1);
    stream.buffer.resize(BUFFER + 3000, 9);
    let longest = [&b"S"[..], &[b'x'; 4096], b"\n"].concat();
    assert_eq!(stream.feed(&longest), [taken(&longest, 1)]);
    assert_eq!(stream.feed(&[b'x'; 9000]).len(), 1);
    assert!(stream.pieces.dropping);
    assert_eq!(stream.buffer[BUFFER..], [9; 3000]);
}
