//! Soup packets: every refusal of reader and writer, and the way there and back.

mod common;

use common::{number, soup, soup_a, soup_l, written, USERS};
use ordinary::kinds::{Name, Password, Reason, Sequence, User};
use ordinary::soup::{read, write, Packet};

#[test]
fn what_is_taken() {
    let opaque = b"any \0 byte \xff but one";
    assert_eq!(read(&soup(b'+', opaque)), Ok(Packet::Debug(opaque)));
    assert_eq!(read(&soup(b'S', opaque)), Ok(Packet::Sequenced(opaque)));
    assert_eq!(read(&soup(b'U', opaque)), Ok(Packet::Unsequenced(opaque)));
    let longest = [b'x'; 4096];
    assert_eq!(read(&soup(b'S', &longest)), Ok(Packet::Sequenced(&longest)));
    assert_eq!(read(b"S\n"), Ok(Packet::Sequenced(b"")));
    assert_eq!(read(b"H\n"), Ok(Packet::ServerHeartbeat));
    assert_eq!(read(b"Z\n"), Ok(Packet::EndOfSession));
    assert_eq!(read(b"R\n"), Ok(Packet::ClientHeartbeat));
    assert_eq!(read(b"O\n"), Ok(Packet::Logout));
    for reason in [Reason::NOT_AUTHORISED, Reason::NO_SESSION] {
        let packet = [b'J', reason.0, b'\n'];
        assert_eq!(read(&packet), Ok(Packet::Rejected { reason }));
    }
    assert_eq!(
        read(&soup_a("ABCDEFghij", "18446744073709551615")),
        Ok(Packet::Accepted {
            session: Name(*b"ABCDEFghij"),
            next: Sequence(u64::MAX),
        })
    );
    assert_eq!(
        read(&soup_l("me", "secret", "8841", "0")),
        Ok(Packet::Login {
            user: User(*b"me    "),
            password: Password(*b"secret    "),
            session: Name(*b"      8841"),
            next: Sequence(0),
        })
    );
}

#[test]
fn what_a_reader_refuses() {
    let accepted = soup_a("8841", "1");
    let login = soup_l("me", "secret", "8841", "1");
    let twenty_nines = "9".repeat(20);
    let twenty_noughts = "0".repeat(20);
    let cases: &[(&[u8], u8)] = &[
        (b"", 1),
        (&soup(b'S', &[b'x'; 4097]), 2),
        (&[b'\n'; 4099], 2),
        (b"X\n", 3),
        (b"\n", 3),
        (b"\n\n", 3),
        (b"h\n", 3),
        (b"S", 4),
        (b"+", 4),
        (b"U", 4),
        (b"H", 4),
        (b"J", 4),
        (b"A", 4),
        (b"L", 4),
        (b"Sabc", 4),
        (&[b'S'; 4098], 4),
        (b"H \n", 4),
        (b"Z \n", 4),
        (b"R \n", 4),
        (b"O \n", 4),
        (b"H\n\n", 4),
        (b"Hx", 4),
        (b"J\n", 4),
        (b"JA", 4),
        (b"JAA\n", 4),
        (b"JAx", 4),
        (&accepted[1..], 3),
        (&accepted[..31], 4),
        (&[&accepted[..31], b" "].concat(), 4),
        (&[&accepted[..], b"\n"].concat(), 4),
        (&login[..47], 4),
        (&[&login[..47], b"1"].concat(), 4),
        (&[&login[..], b"\n"].concat(), 4),
        (b"S\n\n", 8),
        (b"Sab\ncd\n", 8),
        (b"+\n\n", 8),
        (b"U\n\n", 8),
        (b"J\n\n", 8),
        (&soup_a("88\n1", "1"), 8),
        (&soup_a("8841", "1\n"), 8),
        (&soup_l("m\n", "secret", "8841", "1"), 8),
        (b"JX\n", 5),
        (b"Ja\n", 5),
        (&soup_a("8841 ", "1"), 5),
        (&soup_a("88 41", "1"), 5),
        (&soup_a("88-41", "1"), 5),
        (&soup_a("8841", "1 "), 5),
        (&soup_a("8841", "1 1"), 5),
        (&soup_a("8841", "1a"), 5),
        (&soup_a("8841", "0 1"), 5),
        (&soup_a("8841", "00 "), 5),
        (&soup_a("8841", "+1"), 5),
        (&soup_l(" me", "secret", "8841", "1"), 5),
        (&soup_l("me", "se cret", "8841", "1"), 5),
        (&soup_l("me", "secret", "8841 ", "1"), 5),
        (&soup_l("me", "secret", "8841", "0 42"), 5),
        (&soup_l("me", "secret", "8841", "1."), 5),
        (&soup_a("", "1"), 6),
        (&soup_a("8841", ""), 6),
        (&soup_a("8841", "0"), 6),
        (&soup_a("8841", "00"), 6),
        (&soup_a("8841", &twenty_noughts), 6),
        (&soup_l("me", "secret", "8841", ""), 6),
        (&soup_l("", "secret", "8841", "1"), 6),
        (&soup_l("", "", "", "0"), 6),
        (&soup_a("8841", "18446744073709551616"), 7),
        (&soup_a("8841", &twenty_nines), 7),
        (&soup_l("me", "secret", "8841", "20000000000000000000"), 7),
    ];
    for (packet, refusal) in cases {
        assert_eq!(number(read(packet)), *refusal, "{packet:?}");
    }
}

#[test]
fn the_order_is_by_number_over_the_whole_packet() {
    let high = "18446744073709551616";
    for (packet, refusal) in [
        (soup_a("", "1x"), 5),
        (soup_a("", "0 1"), 5),
        (soup_a("", "01"), 6),
        (soup_a("", "00"), 6),
        (soup_a("8 1", "00"), 5),
        (soup_a("8 1", ""), 5),
        (soup_a("", high), 6),
        (soup_a("8 1", high), 5),
        (soup_a("8 1", "1\n"), 8),
        (soup_l(" me", "secret", "8841", ""), 5),
        (soup_l("me", "secret", "8 41", high), 5),
        (soup_l("me", " secret", "88\n1", ""), 8),
        (soup_l("", "secret", "8841", ""), 6),
        (soup_l("", "secret", "8841", high), 6),
        (soup_l("", "secret", "8841", "1x"), 5),
        (soup_l("", "secret", "8841", "0 1"), 5),
        (soup_l("", "secret", "8841", "01"), 6),
        (soup_l("", "se-cret", "8841", "1"), 5),
        (soup_l("", "secret", "8841 ", "1"), 5),
        (soup_l("", "secret", "8841", "1\n"), 8),
        (soup_l("", "secret", "8841", "1")[..47].to_vec(), 4),
    ] {
        assert_eq!(number(read(&packet)), refusal, "{packet:?}");
    }
}

/// Passwords, sessions and numbers: lawful, blank, of bad form, with a linefeed, or too great.
const PASSWORDS: [&str; 6] = ["secret", "", " secret", "se cret", "se-cret", "se\ncret"];
const SESSIONS: [&str; 6] = ["8841", "", "8841 ", "88 41", "88-41", "88\n41"];
const NUMBERS: [&str; 11] = [
    "1",
    "0",
    "18446744073709551615",
    "01",
    "00000000000000000000",
    "",
    "18446744073709551616",
    "99999999999999999999",
    "0 1",
    "1 ",
    "1x",
];

#[test]
fn a_blank_user_is_6_where_another_would_be_taken_or_the_number_be_too_great() {
    let mut seen = [0; 9];
    for password in PASSWORDS {
        for session in SESSIONS {
            for digits in NUMBERS {
                let of = |user| number(read(&soup_l(user, password, session, digits)));
                let named = of("u");
                let nameless = if matches!(named, 0 | 7) { 6 } else { named };
                assert_eq!(of(""), nameless, "{password:?} {session:?} {digits:?}");
                seen[usize::from(named)] += 1;
            }
        }
    }
    // two passwords, two sessions; five numbers that are taken, one blank, two too great
    assert_eq!(seen, [20, 0, 0, 0, 0, 243, 4, 8, 121]);
}

#[test]
fn a_user_is_blank_only_if_all_of_it_is() {
    for (user, refusal) in USERS {
        let packet = soup_l(user, "", "", "0");
        assert_eq!(number(read(&packet)), refusal, "{user:?}");
    }
}

/// A blank user.
const NOBODY: &[u8; 6] = b"      ";

fn write_out(packet: Packet) -> Result<Vec<u8>, u8> {
    written(|slip| write(&packet, slip))
}

#[test]
fn what_a_writer_refuses() {
    let accepted = |session: &[u8; 10], next| Packet::Accepted {
        session: Name(*session),
        next: Sequence(next),
    };
    let login = |user: &[u8; 6], password: &[u8; 10], session: &[u8; 10]| Packet::Login {
        user: User(*user),
        password: Password(*password),
        session: Name(*session),
        next: Sequence(1),
    };
    let rejected = |reason| Packet::Rejected {
        reason: Reason(reason),
    };
    let cases = [
        (Packet::Debug(&[b'\n'; 4097]), 2),
        (Packet::Sequenced(&[b'x'; 4097]), 2),
        (Packet::Unsequenced(&[b'x'; 9000]), 2),
        (Packet::Debug(b"a\nb"), 8),
        (Packet::Sequenced(b"a\n"), 8),
        (Packet::Unsequenced(b"\n"), 8),
        (rejected(b'\n'), 8),
        (accepted(b" 8\n      1", 0), 8),
        (login(b"me\n   ", b" secret   ", b"      8841"), 8),
        (login(b" me   ", b"se\ncret   ", b"      8841"), 8),
        (login(b" me   ", b"secret    ", b"     88\n41"), 8),
        (rejected(b'B'), 5),
        (accepted(b"8841      ", 0), 5),
        (login(b" me   ", b"secret    ", b"      8841"), 5),
        (login(b"me    ", b" secret   ", b"      8841"), 5),
        (login(b"me    ", b"secret    ", b"8841      "), 5),
        (accepted(b"          ", 1), 6),
        (accepted(b"      8841", 0), 6),
        (login(NOBODY, b"se\ncret   ", b"8841      "), 8),
        (login(NOBODY, b"se-cret   ", b"      8841"), 5),
        (login(NOBODY, b"secret    ", b"8841      "), 5),
        (login(NOBODY, b"secret    ", b"      8841"), 6),
        (login(NOBODY, b"          ", b"          "), 6),
    ];
    for (packet, refusal) in cases {
        assert_eq!(write_out(packet), Err(refusal), "{packet:?}");
    }
}

#[test]
fn what_is_read_is_written_again() {
    for packet in [
        b"+\n".to_vec(),
        soup(b'+', b"hello"),
        soup(b'S', &[0; 4096]),
        soup(b'U', b" "),
        b"H\n".to_vec(),
        b"Z\n".to_vec(),
        b"R\n".to_vec(),
        b"O\n".to_vec(),
        b"JA\n".to_vec(),
        b"JS\n".to_vec(),
        soup_a("8841", "1"),
        soup_a("ABCDEFghij", "18446744073709551615"),
        soup_l("me", "secret", "8841", "0"),
        soup_l("u", "", "", "10000000000000000000"),
        soup_l("sixsix", "tententent", "sessionten", "7"),
    ] {
        assert_eq!(write_out(read(&packet).unwrap()), Ok(packet));
    }
}
