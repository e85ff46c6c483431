//! Room: how much output a packet's messages and all held ones need, and how much is never too little.

mod common;

use common::desk::Desk;
use common::{blocks, memx_data, take_with, ufo_s};
use ordinary::held::{LONGEST, SLOT};
use ordinary::{memx, ufo};

/// Lets a desk hold so many messages right behind the next, each as long as can be.
fn brimming(mut desk: Desk, held: u64) -> Desk {
    for number in desk.record.next.0 + 1..=desk.record.next.0 + held {
        let block = blocks(&[&[number as u8; LONGEST]]);
        desk.slot(number).copy_from_slice(&block);
        desk.record.held.0 |= 1 << (number % 32);
        desk.record.top.0 = number;
    }
    desk
}

/// Asks that a datagram, which delivers this message and all that are held, is taken with just the
/// room for them and with more, and refused as 9 with less; how much that is.
fn needs(desk: &Desk, datagram: &[u8], message: &[u8], rooms: &[usize]) -> usize {
    let held = desk.record.held.0.count_ones() as usize;
    let behind = 1 + desk.record.next.0 as usize % 32;
    let slots = desk.area.chunks(SLOT).cycle().skip(behind).take(held);
    let due = [blocks(&[message]), slots.flatten().copied().collect()].concat();
    let (own, all) = (2 + message.len(), due.len());
    for &room in [0, own, all - 1, all, all + 1].iter().chain(rooms) {
        let (mut record, mut area) = (desk.record, common::copied(&desk.area));
        let taken = take_with(room, &mut record, &mut area, datagram);
        let expected = if room < all {
            Err(9)
        } else {
            Ok((due.clone(), 1 + held as u64))
        };
        assert!(taken == expected, "{held} held, room for {room}");
    }
    all
}

#[test]
fn each_protocol_s_room_has_its_number() {
    assert_eq!((ufo::LIMIT, ufo::ROOM), (1472, 47_104));
    assert_eq!((memx::LIMIT, memx::ROOM), (8972, 54_604));
}

#[test]
fn a_memx_packet_and_all_held_messages_have_room_in_54_604_bytes_and_not_in_47_104() {
    let message = [b'x'; 8950];
    for next in [1, 30] {
        let datagram = memx_data(7, next, &[&message]);
        assert_eq!(datagram.len(), memx::LIMIT);
        for held in 0..=31 {
            let desk = brimming(Desk::memx(next), held);
            let needed = needs(&desk, &datagram, &message, &[ufo::ROOM, memx::ROOM]);
            assert_eq!(needed, 8952 + held as usize * SLOT);
            assert_eq!(needed > ufo::ROOM, held >= 26, "{held}");
            assert!(needed <= memx::ROOM);
        }
    }
}

#[test]
fn a_ufo_packet_and_all_held_messages_have_room_in_47_104_bytes() {
    let message = [b'x'; 1463];
    let datagram = ufo_s(1, &[&message]);
    assert_eq!(datagram.len(), ufo::LIMIT);
    for held in 0..=31 {
        let desk = brimming(Desk::ufo(1), held);
        let needed = needs(&desk, &datagram, &message, &[ufo::ROOM]);
        assert_eq!(needed, 1465 + held as usize * SLOT);
        assert!(needed <= ufo::ROOM);
    }
}

#[test]
fn a_packet_that_is_early_needs_no_room_though_it_is_too_long_to_be_held() {
    for length in [1470, 1471, 8950] {
        let Desk {
            mut record,
            mut area,
        } = brimming(Desk::memx(1), 5);
        let datagram = memx_data(7, 9, &[&vec![b'x'; length]]);
        let taken = take_with(0, &mut record, &mut area, &datagram);
        assert_eq!(taken, Ok((vec![], 0)), "{length}");
        assert_eq!(record.top.0, 9);
        assert_eq!(record.held.0 >> 9, u32::from(length == 1470));
    }
}
