//! The typed face over jumbo frames: limits and rooms by name, and messages that are too long to be held.

use compare::limits::{AREA, LONGEST, MEMX, MEMX_ROOM, SLOT, UFO, UFO_ROOM};
use hinurapay::memx::{self, Packet};
use hinurapay::{ufo, Area, Asked, Patience, Record, Refusal, Sequence, SessionId, Sheet};

#[test]
fn limits_and_rooms_have_their_numbers() {
    assert_eq!((ufo::LIMIT, ufo::ROOM), (UFO, UFO_ROOM));
    assert_eq!((memx::LIMIT, memx::ROOM), (MEMX, MEMX_ROOM));
    assert_eq!(Record::ROOM, memx::ROOM);
    assert_eq!(
        (Area::SLOT, Area::BYTES, Area::LONGEST),
        (SLOT, AREA, LONGEST)
    );
}

/// The packet of session 7 that has one message of so many bytes.
fn one(number: u64, length: usize) -> Vec<u8> {
    let blocks = [
        &(length as u16).to_be_bytes()[..],
        &vec![number as u8; length],
    ]
    .concat();
    let mut out = vec![0; 22 + length];
    let written = memx::write(&of(number, &blocks), &mut out);
    assert_eq!(written, Ok(out.len()));
    out
}

fn of(number: u64, blocks: &[u8]) -> Packet<'_> {
    Packet::Sequenced {
        session: SessionId(7),
        first: Sequence(number),
        count: 1,
        extra: b"",
        blocks,
    }
}

#[test]
fn a_packet_of_8_972_bytes_comes_back_and_a_longer_one_is_refused() {
    let mut packet = one(3, MEMX - 22);
    let blocks = packet[20..].to_vec();
    assert_eq!(memx::read(&packet), Ok(of(3, &blocks)));
    packet.push(0);
    assert_eq!(memx::read(&packet), Err(Refusal::Oversize));
    let over = memx::write(&of(3, &packet[20..]), &mut [0; MEMX + 1]);
    assert_eq!(over, Err(Refusal::Oversize));
}

#[test]
fn what_was_too_long_to_be_held_is_asked_for_and_delivered() {
    let (mut record, mut area) = (Record::open_memx(SessionId(7)), Area::new());
    let mut out = [0; Record::ROOM];
    for (number, length) in [(2, 1471), (3, 1470)] {
        let taken = record.take(&mut area, &one(number, length), &mut []);
        assert_eq!(taken.unwrap().messages, 0);
    }
    assert_eq!((record.top(), record.held()), (Sequence(3), 1 << 3));
    let asked = record.ask(&Sheet::default(), &Patience::Never, 0.0);
    let (first, count) = (Sequence(1), 2);
    assert_eq!(asked, Ok(Asked::Request { first, count }));
    record.take(&mut area, &one(1, 0), &mut out).unwrap();
    assert!(record.missing().eq([(Sequence(2), Sequence(2))]));
    let taken = record.take(&mut area, &one(2, 1471), &mut out).unwrap();
    assert_eq!(taken.messages, 2);
    assert_eq!(
        taken.blocks,
        [&one(2, 1471)[20..], &one(3, 1470)[20..]].concat()
    );
}

#[test]
fn the_record_s_room_is_never_too_little_and_ufo_s_is_for_memx() {
    let (mut record, mut area) = (Record::open_memx(SessionId(7)), Area::new());
    for number in 2..=32 {
        record
            .take(&mut area, &one(number, LONGEST), &mut [])
            .unwrap();
    }
    let (longest, before, held) = (one(1, MEMX - 22), record, area.clone());
    let mut out = [0xee; ufo::ROOM];
    let refused = record.take(&mut area, &longest, &mut out);
    assert_eq!(refused, Err(Refusal::Room));
    assert_eq!((record, out), (before, [0xee; ufo::ROOM]));
    assert!(area == held);
    let mut out = [0xee; Record::ROOM];
    let taken = record.take(&mut area, &longest, &mut out).unwrap();
    assert_eq!((taken.messages, taken.blocks.len()), (32, 8952 + 31 * SLOT));
}
