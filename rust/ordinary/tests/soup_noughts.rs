//! Soup numbers with noughts before them: taken wherever a number stands, and written without them.

mod common;

use common::stream::{refused, taken, Stream};
use common::{number, soup_a, soup_l, spelling, written};
use ordinary::flat::{hp_packet, hp_pieces, hp_soup_read, hp_soup_take, hp_soup_write};
use ordinary::soup::{read, write, Packet};

/// What a number's packet says, or the refusal's number.
type Said = Result<u64, u8>;

/// Numbers as they are spelt, and what `A` and `L` say then.
const EDGES: [(&str, Said, Said); 22] = [
    ("00000000000000000042", Ok(42), Ok(42)),
    ("      00000000000042", Ok(42), Ok(42)),
    ("                  42", Ok(42), Ok(42)),
    ("01", Ok(1), Ok(1)),
    ("00000000000000000001", Ok(1), Ok(1)),
    ("010", Ok(10), Ok(10)),
    ("0", Err(6), Ok(0)),
    ("00", Err(6), Ok(0)),
    ("0000000000000000000", Err(6), Ok(0)),
    ("00000000000000000000", Err(6), Ok(0)),
    ("", Err(6), Err(6)),
    ("01844674407370955161", Ok(MAX / 10), Ok(MAX / 10)),
    ("09999999999999999999", Ok(NINES), Ok(NINES)),
    ("18446744073709551615", Ok(MAX), Ok(MAX)),
    ("18446744073709551616", Err(7), Err(7)),
    ("99999999999999999999", Err(7), Err(7)),
    ("0 42", Err(5), Err(5)),
    ("0                 42", Err(5), Err(5)),
    ("00000000000 00000042", Err(5), Err(5)),
    ("0000000000000000000 ", Err(5), Err(5)),
    ("00000000000000042   ", Err(5), Err(5)),
    ("0000000000000000x042", Err(5), Err(5)),
];

const MAX: u64 = u64::MAX;

/// Nineteen nines.
const NINES: u64 = 9_999_999_999_999_999_999;

/// A login accepted, and one asked for, with the number as it is spelt.
fn accepted(number: &str) -> Vec<u8> {
    soup_a("8841", number)
}

fn login(number: &str) -> Vec<u8> {
    soup_l("me", "secret", "", number)
}

/// What a packet with a number says.
fn said(packet: &[u8]) -> Said {
    match read(packet) {
        Ok(Packet::Accepted { next, .. } | Packet::Login { next, .. }) => Ok(next.0),
        Ok(other) => panic!("{other:?}"),
        Err(refusal) => Err(refusal.number()),
    }
}

/// The same on the flat face.
fn flatly_said(packet: &[u8]) -> Said {
    let answer = hp_soup_read(packet);
    match answer.refusal {
        0 => Ok(answer.packet.number),
        refusal => {
            assert_eq!(answer.packet, hp_packet::default());
            Err(refusal as u8)
        }
    }
}

#[test]
fn every_edge_is_read() {
    for (spelt, in_accepted, in_login) in EDGES {
        for said in [said, flatly_said] {
            assert_eq!(said(&accepted(spelt)), in_accepted, "{spelt:?}");
            assert_eq!(said(&login(spelt)), in_login, "{spelt:?}");
        }
    }
}

/// Of each length the least number, the greatest and one between.
fn numbers() -> impl Iterator<Item = u64> {
    (0..20).flat_map(|place| {
        let least = 10u64.pow(place);
        let greatest = least.checked_mul(10).map_or(MAX, |above| above - 1);
        [least, least + (greatest - least) / 3, greatest]
    })
}

/// The number with no nought before it, with one, and so on as far as there is room.
fn fields(number: u64) -> impl Iterator<Item = String> {
    let digits = number.to_string();
    (digits.len()..=20).map(move |width| format!("{digits:0>width$}"))
}

fn write_out(packet: &[u8]) -> Result<Vec<u8>, u8> {
    let read = read(packet).map_err(|refusal| refusal.number())?;
    written(|slip| write(&read, slip))
}

/// Asks that a packet is read as its spelling is, and written as that; and so is the spelling.
fn comes_to(packet: &[u8], spelt: &[u8]) {
    assert_eq!(spelling(packet), spelt);
    assert_eq!(read(packet), read(spelt));
    assert_eq!(write_out(packet), Ok(spelt.to_vec()), "{packet:?}");
    assert_eq!(write_out(spelt), Ok(spelt.to_vec()));
}

#[test]
fn spaces_noughts_and_digits_in_every_mixture() {
    let mut mixtures = 0;
    for number in numbers() {
        for field in fields(number) {
            for of in [accepted, login] {
                let packet = of(&field);
                assert_eq!(said(&packet), Ok(number), "{field}");
                assert_eq!(flatly_said(&packet), Ok(number), "{field}");
                comes_to(&packet, &of(&number.to_string()));
            }
            mixtures += 1;
        }
    }
    // 20 for numbers of one digit, 19 for those of two, and so on
    assert_eq!(mixtures, 3 * 210);
}

#[test]
fn nothing_but_noughts_is_0_in_a_login_and_6_where_it_is_accepted() {
    for field in fields(0) {
        assert_eq!(number(read(&accepted(&field))), 6, "{field}");
        assert_eq!(said(&login(&field)), Ok(0), "{field}");
        comes_to(&login(&field), &login("0"));
    }
}

#[test]
fn the_flat_face_writes_the_spelling() {
    for of in [accepted, login] {
        let (packet, spelt) = (of("00000000000000000042"), of("42"));
        let fields = hp_soup_read(&packet).packet;
        assert_eq!(fields, hp_soup_read(&spelt).packet);
        let mut out = vec![0xee; packet.len()];
        let wrote = hp_soup_write(fields, b"", &mut out);
        assert_eq!((wrote.refusal, wrote.bytes), (0, packet.len() as u64));
        assert_eq!(out, spelt);
    }
}

#[test]
fn every_edge_is_handed_out_of_a_stream_with_its_own_bytes() {
    for (spelt, in_accepted, in_login) in EDGES {
        let mut stream = Stream::begun();
        for (packet, said) in [(login(spelt), in_login), (accepted(spelt), in_accepted)] {
            let handed = match said {
                Ok(_) => taken(&packet, 0),
                Err(why) => refused(&packet, why),
            };
            assert_eq!(stream.feed(&packet), [handed]);
        }
        let next = in_accepted.unwrap_or(0);
        assert_eq!(stream.state(), (&b""[..], false, next), "{spelt:?}");
    }
}

#[test]
fn a_stream_is_numbered_from_a_padded_number_wherever_it_is_cut() {
    let packet = accepted("00000000000000000042");
    let bytes = [&packet[..], b"Sone\n", &packet, b"Stwo\n"].concat();
    let outs = [
        taken(&packet, 0),
        taken(b"Sone\n", 42),
        refused(&packet, 16),
        taken(b"Stwo\n", 43),
    ];
    for cut in 0..=bytes.len() {
        let mut stream = Stream::begun();
        assert_eq!(stream.feed_cut(&bytes, &[cut]), outs, "cut at {cut}");
        assert_eq!(stream.state(), (&b""[..], false, 44));
    }
}

#[test]
fn a_stream_on_the_flat_face_is_numbered_from_a_padded_number() {
    let packet = accepted("00000000000000000042");
    let mut buffer = vec![0xee; 4098];
    let answer = hp_soup_take(hp_pieces::default(), &mut buffer, &packet, 0);
    assert_eq!((answer.what, answer.why, answer.bytes), (1, 0, 32));
    assert_eq!(answer.packet, hp_soup_read(&accepted("42")).packet);
    assert_eq!(buffer[..32], packet);
    assert_eq!(answer.pieces.next, 42);
    let answer = hp_soup_take(answer.pieces, &mut buffer, b"S\n", 0);
    assert_eq!((answer.number, answer.pieces.next), (42, 43));

    let nothing = accepted("00000000000000000000");
    let answer = hp_soup_take(hp_pieces::default(), &mut buffer, &nothing, 0);
    assert_eq!((answer.what, answer.why, answer.pieces.next), (2, 6, 0));
}
