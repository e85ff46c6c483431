//! The packets of the login replays are such as they say.

use bench::{logins, TURN};
use ordinary::soup;
use std::collections::BTreeMap;

/// What stands behind the spaces of a packet's number.
fn digits(packet: &[u8]) -> &[u8] {
    let field = &packet[packet.len() - 21..packet.len() - 1];
    field.trim_ascii_start()
}

#[test]
fn every_length_comes_equally_often_and_one_packet_in_ten_is_damaged() {
    let mut seen = BTreeMap::new();
    for packet in logins(1) {
        let (refusal, digits) = match soup::read(&packet) {
            Ok(_) => (0, digits(&packet).len()),
            Err(refusal) => (refusal.number(), 0),
        };
        *seen.entry((packet[0], refusal, digits)).or_insert(0) += 1;
    }
    let mut expected = BTreeMap::new();
    for kind in [b'A', b'L'] {
        expected.extend((1..=20).map(|digits| ((kind, 0, digits), 18)));
        expected.extend([((kind, 5, 0), 24), ((kind, 6, 0), 8), ((kind, 7, 0), 8)]);
    }
    assert_eq!(seen, expected);
    assert_eq!(seen.values().sum::<u64>(), TURN);
}

#[test]
fn the_first_number_that_is_too_great_is_among_them() {
    let mut packets = logins(1).into_iter();
    assert!(packets.any(|packet| packet.ends_with(b"18446744073709551616\n")));
}

#[test]
fn noughts_before_a_space_are_among_the_damage() {
    for noughts in [&b"0 "[..], b"00 "] {
        let packets = logins(1).into_iter();
        let damaged = packets.filter(|packet| digits(packet).starts_with(noughts));
        // one of ten ways, and one packet of ten
        assert_eq!(damaged.count() as u64, TURN / 100, "{noughts:?}");
    }
}

#[test]
fn padded_with_noughts_they_are_the_same_logins() {
    let mut padded = 0;
    for (packet, plain) in logins(20).into_iter().zip(logins(1)) {
        assert_eq!(soup::read(&packet), soup::read(&plain));
        if soup::read(&packet).is_err() {
            assert_eq!(packet, plain, "what is damaged is left");
            continue;
        }
        let number = digits(&packet);
        let noughts = number.iter().take_while(|&&digit| digit == b'0').count();
        assert_eq!(number.len(), 20);
        assert_eq!(number[noughts..], *digits(&plain));
        padded += usize::from(noughts > 0);
    }
    // nine packets of ten, and nineteen lengths of twenty
    assert_eq!(padded as u64, TURN * 9 / 10 * 19 / 20);
}
