//! The typed face of Soup as it comes off the wire: it hands out what the flat face does.

use compare::dice::Dice;
use compare::make::{line, ToFeed};
use hinurapay::flat::{hp_piece, hp_pieces, hp_soup_take};
use hinurapay::soup::{read, Packet};
use hinurapay::{Fed, Handed, Pieces, Refusal, Sequence};

const CASES: u64 = 4000;

const ACCEPTED: &[u8] = b"A      8841                   1\n";

/// Logins accepted whose number has noughts before it, or is nothing else.
const PADDED: &[u8] = b"A      884100000000000000000042\n";
const NOUGHTS: &[u8] = b"A      884100000000000000000000\n";

/// A login that names no user.
const NAMELESS: &[u8] = b"L      secret          8841                   1\n";

/// Asks that what is handed out is what the flat face answered, and that the fields are the reader's.
fn is_same(handed: &Handed<'_>, answer: &hp_piece) {
    assert_eq!(handed.bytes.len() as u64, answer.bytes);
    assert_eq!(handed.number.map_or(0, |number| number.0), answer.number);
    match handed.packet {
        Ok(packet) => assert_eq!((answer.what, read(handed.bytes)), (1, Ok(packet))),
        Err(why) => assert_eq!((answer.what, u64::from(why.number())), (2, answer.why)),
    }
}

#[test]
fn what_is_handed_out_is_what_the_flat_face_hands_out() {
    let mut handed_out = 0;
    for case in 0..CASES / 10 {
        let mut dice = Dice::seeded(7, 0, case);
        let (mut pieces, mut flat, mut buffer) =
            (Pieces::new(), hp_pieces::default(), vec![0; 4098]);
        for _ in 0..4 {
            let lines = (0..dice.below(5)).flat_map(|_| line(&mut dice));
            let mut piece: Vec<u8> = lines.collect();
            piece.truncate(dice.below(piece.len() + 1));
            let mut fed = pieces.feed(&piece);
            let mut place = 0;
            loop {
                let answer = hp_soup_take(flat, &mut buffer, &piece, place);
                (flat, place) = (answer.pieces, answer.place);
                match fed.next() {
                    Some(handed) => is_same(&handed, &answer),
                    None => break assert_eq!((answer.what, fed.next()), (0, None)),
                }
                handed_out += 1;
            }
            drop(fed);
            assert_eq!(pieces.flat(), flat);
            assert_eq!(pieces.unfinished(), &buffer[..flat.kept as usize]);
            assert_eq!(pieces.dropping(), flat.dropping == 1);
            assert_eq!(pieces.next_number().map_or(0, |next| next.0), flat.next);
        }
    }
    assert!(handed_out > CASES / 4, "{handed_out}");
}

#[test]
fn a_session_is_read_with_its_numbers() {
    let mut pieces = Pieces::new();
    let bytes = [
        b"Searly\n",
        ACCEPTED,
        b"Sone\nH\nStwo\nJX\n",
        ACCEPTED,
        NAMELESS,
        b"S\n",
    ]
    .concat();
    let mut seen = Vec::new();
    for piece in bytes.chunks(7) {
        let mut fed = pieces.feed(piece);
        while let Some(handed) = fed.next() {
            let message = match handed.packet {
                Ok(Packet::Sequenced(message)) => Ok(message.to_vec()),
                Ok(other) => Ok(format!("{other:?}").into_bytes()),
                Err(why) => Err(why),
            };
            seen.push((handed.number.map(|number| number.0), message));
        }
    }
    let accepted = read(ACCEPTED).unwrap();
    let expected = [
        (None, Err(Refusal::NotForRecord)),
        (None, Ok(format!("{accepted:?}").into_bytes())),
        (Some(1), Ok(b"one".to_vec())),
        (None, Ok(b"ServerHeartbeat".to_vec())),
        (Some(2), Ok(b"two".to_vec())),
        (None, Err(Refusal::Form)),
        (None, Err(Refusal::NotForRecord)),
        (None, Err(Refusal::Blank)),
        (Some(3), Ok(b"".to_vec())),
    ];
    assert_eq!(seen, expected);
    assert_eq!(pieces.next_number(), Some(Sequence(4)));
}

#[test]
fn a_session_is_counted_from_a_number_with_noughts_before_it() {
    let mut pieces = Pieces::new();
    for (bytes, packet, next) in [
        (NOUGHTS, Err(Refusal::Blank), None),
        (PADDED, read(PADDED), Some(Sequence(42))),
    ] {
        let mut fed = pieces.feed(bytes);
        let handed = fed.next().unwrap();
        assert_eq!((handed.bytes, handed.packet), (bytes, packet));
        drop(fed);
        assert_eq!(pieces.next_number(), next);
    }
    let mut fed = pieces.feed(b"S\n");
    assert_eq!(fed.next().unwrap().number, Some(Sequence(42)));
}

#[test]
fn an_overlong_packet_is_handed_out_once_and_dropped() {
    let mut pieces = Pieces::new();
    let overlong = [b'x'; 4100];
    let mut fed = pieces.feed(&overlong);
    let expected = Handed {
        bytes: &overlong[..4098],
        packet: Err(Refusal::Oversize),
        number: None,
    };
    assert_eq!(fed.next(), Some(expected));
    assert_eq!(fed.next(), None);
    drop(fed);
    assert!(pieces.dropping() && pieces.unfinished().is_empty());
    assert_eq!(pieces.feed(b"x\n").next(), None);
    assert_eq!(pieces, Pieces::new());
}

/// How many packets a piece hands out.
fn counted(mut fed: Fed<'_, '_>) -> usize {
    let mut packets = 0;
    while fed.next().is_some() {
        packets += 1;
    }
    packets
}

/// A piece that was asked for so many packets.
fn asked<'s, 'a>(pieces: &'s mut Pieces, piece: &'a [u8], packets: usize) -> Fed<'s, 'a> {
    let mut fed = pieces.feed(piece);
    for _ in 0..packets {
        fed.next();
    }
    fed
}

#[test]
fn what_is_dropped_half_way_is_fed_and_the_rest_can_be_had() {
    let bytes = [ACCEPTED, b"Sa\nSb\nSc\n\nHx"].concat();
    let mut whole = Pieces::new();
    assert_eq!(counted(whole.feed(&bytes)), 5);
    assert_eq!(whole.next_number(), Some(Sequence(4)));
    assert_eq!(whole.unfinished(), b"Hx");
    for packets in 0..=6 {
        let mut pieces = Pieces::new();
        drop(asked(&mut pieces, &bytes, packets));
        assert_eq!(pieces, whole, "{packets} asked for, then dropped");

        let mut pieces = Pieces::new();
        let rest = asked(&mut pieces, &bytes, packets).rest();
        // only asking once more than there are packets uses the piece up
        assert_eq!(rest.is_empty(), packets == 6, "{packets}");
        assert_eq!(pieces == whole, packets == 6, "{packets}");
        assert_eq!(packets.min(5) + counted(pieces.feed(rest)), 5);
        assert_eq!(pieces, whole, "{packets} asked for, then the rest");
    }
}

#[test]
fn a_stream_can_be_kept_if_it_hangs_together() {
    let (mut sound, mut broken) = (0, 0);
    for case in 0..CASES {
        let given = ToFeed::made(&mut Dice::seeded(8, 0, case));
        let mut buffer = given.buffer;
        buffer.resize(buffer.len().max(4098), 0);
        let refusal = hp_soup_take(given.pieces, &mut buffer, &[], 0).refusal;
        let kept = usize::try_from(given.pieces.kept).unwrap_or(usize::MAX);
        let unfinished = &buffer[..kept.min(buffer.len())];
        match Pieces::resumed(given.pieces, unfinished) {
            Ok(pieces) => {
                assert_eq!((refusal, pieces.flat()), (0, given.pieces));
                assert_eq!(pieces.unfinished(), unfinished);
                sound += 1;
            }
            Err(why) => {
                assert_eq!((why, refusal), (Refusal::Broken, 10));
                broken += 1;
            }
        }
    }
    assert!(
        sound > CASES / 2 && broken > CASES / 40,
        "{sound}, {broken}"
    );
}

#[test]
fn parts_that_do_not_go_together_are_no_stream() {
    let kept = hp_pieces {
        kept: 2,
        dropping: 0,
        next: 9,
    };
    let resumed = Pieces::resumed(kept, b"Sa").unwrap();
    assert_eq!(resumed.next_number(), Some(Sequence(9)));
    for unfinished in [&b""[..], b"S", b"Sab", &[b'S'; 4098], &[b'S'; 5000]] {
        assert_eq!(Pieces::resumed(kept, unfinished), Err(Refusal::Broken));
    }
    let most = hp_pieces { kept: 4097, ..kept };
    assert!(Pieces::resumed(most, &[b'S'; 4097]).is_ok());
    for kept in [4098, 4099, 5000] {
        let over = hp_pieces { kept, ..most };
        let unfinished = vec![b'S'; kept as usize];
        assert_eq!(Pieces::resumed(over, &unfinished), Err(Refusal::Broken));
    }
}

#[test]
fn two_streams_are_equal_if_they_go_on_alike() {
    let (mut one, mut other) = (Pieces::new(), Pieces::new());
    drop(one.feed(b"Hello, and no heartbeat\nUn"));
    assert_ne!(one, other);
    drop(other.feed(b"Um"));
    assert_ne!(one, other);
    other = Pieces::new();
    drop(other.feed(b"Un"));
    assert_eq!(one, other);
    drop(other.feed(ACCEPTED));
    assert_ne!(one, other);
}
