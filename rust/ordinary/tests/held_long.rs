//! Early messages that are too long to be held: known of, missing, and delivered once they are next.

mod common;

use common::desk::Desk;
use common::had::ranges;
use common::{blocks, extended, held, memx, memx_data};
use ordinary::held::SLOT;

/// Messages of these lengths, each of which is full of its number, as blocks.
fn told(first: u64, lengths: &[usize]) -> Vec<u8> {
    let numbered = (first..).zip(lengths);
    let block = |(number, &length): (u64, &usize)| blocks(&[&vec![number as u8; length]]);
    numbered.flat_map(block).collect()
}

/// The MEMX-UDP packet of session 7 that has them.
fn packet(first: u64, lengths: &[usize]) -> Vec<u8> {
    let count = (lengths.len() as u16).to_be_bytes();
    [&memx(2, 7, first)[..], &count, &told(first, lengths)].concat()
}

/// Asks that these messages, by number and length, and nothing else was laid into a fresh area.
fn laid_just(desk: &Desk, messages: &[(u64, usize)]) {
    let mut expected = common::area();
    for &(number, length) in messages {
        let block = told(number, &[length]);
        expected[(number % 32) as usize * SLOT..][..block.len()].copy_from_slice(&block);
    }
    assert!(desk.area == expected, "{messages:?}");
}

#[test]
fn a_message_as_long_as_a_slot_is_held() {
    for length in [0, 1469, 1470] {
        for far in [1, 2, 31] {
            let mut desk = Desk::memx(5);
            desk.hold(&packet(5 + far, &[length]), &[5 + far]);
            laid_just(&desk, &[(5 + far, length)]);
            assert_eq!((desk.record.next.0, desk.record.top.0), (5, 5 + far));
            assert_eq!(ranges(&desk.record), [(5, 4 + far)]);
            assert_eq!(desk.request(), (5, far as u16));
        }
    }
}

#[test]
fn a_longer_one_is_not_held_and_is_missing() {
    for length in [1471, 1472, 1473, 8949, 8950] {
        for far in [1, 2, 31, 32, 100] {
            let mut desk = Desk::memx(5);
            desk.hold(&packet(5 + far, &[length]), &[]);
            laid_just(&desk, &[]);
            assert_eq!((desk.record.next.0, desk.record.top.0), (5, 5 + far));
            assert_eq!(ranges(&desk.record), [(5, 5 + far)]);
            assert_eq!(desk.request(), (5, far as u16 + 1));
        }
    }
}

#[test]
fn what_was_too_long_is_delivered_once_it_is_next_and_what_is_held_behind_it_follows() {
    for length in [1471, 4000, 8950] {
        let mut desk = Desk::memx(1);
        desk.hold(&packet(2, &[length]), &[]);
        desk.hold(&packet(3, &[10, 1470]), &[3, 4]);
        desk.hold(&packet(6, &[0]), &[3, 4, 6]);
        assert_eq!(ranges(&desk.record), [(1, 2), (5, 5)]);
        assert_eq!(desk.request(), (1, 2));

        assert_eq!(desk.take(&packet(1, &[3])), told(1, &[3]));
        assert_eq!(ranges(&desk.record), [(2, 2), (5, 5)]);
        assert_eq!(desk.request(), (2, 1));

        let tape = desk.take(&packet(2, &[length]));
        assert!(tape == told(2, &[length, 10, 1470]), "{length}");
        assert_eq!((desk.record.next.0, desk.record.held), (5, held(&[6])));
        assert_eq!(desk.request(), (5, 1));
        laid_just(&desk, &[(3, 10), (4, 1470), (6, 0)]);

        desk.take(&memx(1, 7, 6));
        assert!(!desk.record.standing().unwrap().complete);
        assert_eq!(desk.take(&packet(5, &[1])), told(5, &[1, 0]));
        assert!(desk.record.standing().unwrap().complete);
    }
}

#[test]
fn of_a_packet_those_that_are_not_too_long_are_held() {
    let lengths = [3, 1471, 0, 1470, 1472];
    // the third of them has slot 0, or the first is the last that can be held
    for (next, first, numbers) in [
        (10, 12, &[12, 14, 15][..]),
        (29, 30, &[30, 32, 33]),
        (29, 60, &[60]),
        (29, 59, &[59]),
        (29, 57, &[57, 59, 60]),
    ] {
        let mut desk = Desk::memx(next);
        desk.hold(&packet(first, &lengths), numbers);
        let laid = numbers
            .iter()
            .map(|&number| (number, lengths[(number - first) as usize]));
        laid_just(&desk, &laid.collect::<Vec<_>>());
        assert_eq!(desk.record.top.0, first + 4);
    }
}

#[test]
fn a_packet_of_long_and_short_ones_comes_in_three_turns() {
    let mut desk = Desk::memx(10);
    desk.hold(&packet(12, &[3, 1471, 0, 1470, 1472]), &[12, 14, 15]);
    assert_eq!(ranges(&desk.record), [(10, 11), (13, 13), (16, 16)]);
    assert_eq!(desk.take(&packet(10, &[1, 2])), told(10, &[1, 2, 3]));
    assert_eq!(desk.request(), (13, 1));
    let tape = desk.take(&packet(13, &[1471]));
    assert!(tape == told(13, &[1471, 0, 1470]));
    assert_eq!(desk.request(), (16, 1));
    assert!(desk.take(&packet(12, &[3, 1471, 0, 1470, 1472])) == told(16, &[1472]));
    assert_eq!((desk.record.next.0, desk.record.held), (17, held(&[])));
}

#[test]
fn a_full_slot_keeps_what_it_has_though_the_number_comes_again_too_long() {
    let mut desk = Desk::memx(1);
    desk.hold(&packet(3, &[8]), &[3]);
    desk.hold(&packet(3, &[1471]), &[3]);
    laid_just(&desk, &[(3, 8)]);
    // and what was too long is held if it comes again and is not
    desk.hold(&packet(5, &[8950]), &[3]);
    desk.hold(&packet(5, &[1470]), &[3, 5]);
    laid_just(&desk, &[(3, 8), (5, 1470)]);
}

#[test]
fn a_delivering_packet_s_long_messages_go_out_and_their_slots_fall_free() {
    let mut desk = Desk::memx(1);
    desk.hold(&packet(2, &[7, 7, 7]), &[2, 3, 4]);
    let tape = desk.take(&packet(1, &[1471, 4000, 1472]));
    assert!(tape == told(1, &[1471, 4000, 1472, 7]));
    assert_eq!((desk.record.next.0, desk.record.held), (5, held(&[])));
    laid_just(&desk, &[(2, 7), (3, 7), (4, 7)]);
}

#[test]
fn behind_a_longer_header_it_is_the_message_that_is_too_long() {
    for (length, numbers) in [(1470, &[2][..]), (1471, &[]), (8713, &[])] {
        let datagram = extended(&packet(2, &[length]), &[0xff; 237]);
        let mut desk = Desk::memx(1);
        desk.hold(&datagram, numbers);
        assert_eq!(desk.record.top.0, 2);
        desk.take(&memx_data(7, 1, &[b""]));
        let due = if numbers.is_empty() {
            told(2, &[length])
        } else {
            vec![]
        };
        assert!(desk.take(&datagram) == due, "{length}");
        assert_eq!(desk.record.next.0, 3);
    }
}
