//! Soup as it comes off the wire: wherever the same bytes are cut, the proved desk hands out the same
//! and ends alike, and the ordinary desk agrees at every piece.

use compare::dice::Dice;
use compare::make::{line, spelt_somehow};
use compare::{fed, Agreed};
use hinurapay::flat::{hp_packet, hp_piece, hp_pieces, hp_soup_take};

/// Streams that are cut, each in every way.
const STREAMS: u64 = 60;

/// A buffer as long as it must be, in which nothing stands.
fn untouched() -> Vec<u8> {
    vec![0xee; 4098]
}

/// What was handed out: its bytes, its fields and its number, or why it was refused.
#[derive(Debug, PartialEq)]
struct Out {
    bytes: Vec<u8>,
    packet: hp_packet,
    number: u64,
    why: u64,
}

impl Out {
    /// What an answer hands out of a buffer, if anything.
    fn of(answer: &hp_piece, buffer: &[u8]) -> Option<Out> {
        assert_eq!(answer.refusal, 0);
        assert_eq!(answer.what == 2, answer.why != 0);
        (answer.what != 0).then(|| Out {
            bytes: buffer[..answer.bytes as usize].to_vec(),
            packet: answer.packet,
            number: answer.number,
            why: answer.why,
        })
    }
}

/// What a stream came to: all that was handed out, and all that counts as state.
#[derive(Debug, PartialEq)]
struct Outcome {
    outs: Vec<Out>,
    kept: Vec<u8>,
    pieces: hp_pieces,
}

impl Outcome {
    fn new(outs: Vec<Out>, buffer: &[u8], pieces: hp_pieces) -> Outcome {
        let kept = buffer[..pieces.kept as usize].to_vec();
        Outcome { outs, kept, pieces }
    }
}

/// Feeds pieces to the proved desk.
fn proved<'a>(stream: impl Iterator<Item = &'a [u8]>) -> Outcome {
    let (mut pieces, mut buffer, mut outs) = (hp_pieces::default(), untouched(), Vec::new());
    for piece in stream {
        let mut place = 0;
        loop {
            let answer = hp_soup_take(pieces, &mut buffer, piece, place);
            (pieces, place) = (answer.pieces, answer.place);
            match Out::of(&answer, &buffer) {
                Some(out) => outs.push(out),
                None => break,
            }
        }
        assert_eq!(place, piece.len() as u64);
    }
    Outcome::new(outs, &buffer, pieces)
}

/// Feeds pieces to both desks at once, every answer and every byte of the buffer compared.
fn both<'a>(stream: impl Iterator<Item = &'a [u8]>) -> Outcome {
    let (mut pieces, mut buffer, mut outs) = (hp_pieces::default(), untouched(), Vec::new());
    for piece in stream {
        let mut place = 0;
        loop {
            let Agreed { answer, out, .. } = fed(pieces, buffer, piece, place)
                .unwrap_or_else(|difference| panic!("{}", difference.how));
            (pieces, place, buffer) = (answer.pieces, answer.place, out);
            match Out::of(&answer, &buffer) {
                Some(out) => outs.push(out),
                None => break,
            }
        }
    }
    Outcome::new(outs, &buffer, pieces)
}

/// The bytes cut at random: one cut in so many bytes or so, at times two at one place.
fn cut<'a>(bytes: &'a [u8], length: usize, dice: &mut Dice) -> Vec<&'a [u8]> {
    let (mut pieces, mut rest) = (Vec::new(), bytes);
    while !rest.is_empty() {
        let (piece, behind) = rest.split_at(dice.below(2 * length).min(rest.len()));
        pieces.push(piece);
        rest = behind;
    }
    pieces
}

/// A stream of some twenty lines, mostly with a login before them, of which the last may be unfinished.
fn stream(dice: &mut Dice) -> Vec<u8> {
    let mut bytes = Vec::new();
    if !dice.one_in(4) {
        let next = dice.pick(&[1, 7, u64::MAX - 5]);
        let number = spelt_somehow(next, dice);
        bytes.extend([b"A      8841", &number[..], b"\n"].concat());
    }
    for _ in 0..20 {
        bytes.extend(line(dice));
    }
    bytes.truncate(bytes.len() - dice.below(3));
    bytes
}

#[test]
fn the_same_stream_cut_otherwise_gives_the_same() {
    for seed in 0..STREAMS {
        let mut dice = Dice::seeded(5, 0, seed);
        let bytes = stream(&mut dice);
        let whole = proved([&bytes[..]].into_iter());
        assert!(whole.outs.len() > 1, "seed {seed}");
        assert_eq!(proved(bytes.chunks(1)), whole, "seed {seed}");
        for length in [2, 10, 1400, 4098] {
            let pieces = cut(&bytes, length, &mut dice);
            assert_eq!(proved(pieces.into_iter()), whole, "seed {seed}");
        }
    }
}

#[test]
fn the_two_desks_agree_on_whole_streams() {
    let mut whys = [0; 17];
    let mut numbered = 0;
    for seed in 0..STREAMS {
        let mut dice = Dice::seeded(6, 0, seed);
        let bytes = stream(&mut dice);
        let whole = both([&bytes[..]].into_iter());
        let pieces = cut(&bytes, 20, &mut dice);
        assert_eq!(both(pieces.into_iter()), whole, "seed {seed}");
        for out in &whole.outs {
            whys[out.why as usize] += 1;
            numbered += usize::from(out.number != 0);
        }
    }
    let seen: Vec<usize> = (0..17).filter(|&why| whys[why] > 0).collect();
    assert_eq!(seen, [0, 2, 3, 4, 5, 6, 7, 16]);
    assert!(numbered > 100, "{numbered} are numbered");
}

#[test]
fn the_two_desks_agree_byte_by_byte() {
    let overlong = [b'x'; 4099];
    let bytes = [
        b"S\nA      884100000000000000000003\nSone\n\nHH\n",
        &overlong[..],
        b"\nStwo\nS",
        &overlong[..4096],
        b"\nU",
    ]
    .concat();
    let outcome = both(bytes.chunks(1));
    let whys: Vec<u64> = outcome.outs.iter().map(|out| out.why).collect();
    assert_eq!(whys, [16, 0, 0, 3, 4, 2, 0, 0]);
    let numbers: Vec<u64> = outcome.outs.iter().map(|out| out.number).collect();
    assert_eq!(numbers, [0, 0, 3, 0, 0, 0, 4, 5]);
    assert_eq!((&outcome.kept[..], outcome.pieces.next), (&b"U"[..], 6));
    assert_eq!(both([&bytes[..]].into_iter()), outcome);
}
