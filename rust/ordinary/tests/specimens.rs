//! The specimen book of document 01, entry by entry, as document 02 amends it.

mod common;

use common::{
    area, blocks, memx, memx_data, number, soup_a, take_into, ufo_e, ufo_numbered, ufo_s,
};
use ordinary::blocks::{next_block, Blocks};
use ordinary::clock::{Patience, Sheet};
use ordinary::kinds::{Name, Sequence, SessionId};
use ordinary::lend::Log;
use ordinary::record::{Record, Standing};
use ordinary::refusal::Refusal;
use ordinary::ufo::{read_down, read_message, read_up, Down, Up};
use ordinary::{memx as memx_udp, soup};

const NAME: Name = Name(*b"8841      ");

fn fresh() -> Record {
    Record::open_ufo(NAME).unwrap()
}

fn missing(first: u64, last: u64) -> Standing {
    Standing {
        complete: false,
        missing: 1,
        first: Some((Sequence(first), Sequence(last))),
    }
}

/// Nothing is missing, and no end was heard.
const SILENT: Standing = Standing {
    complete: false,
    missing: 0,
    first: None,
};

const COMPLETE: Standing = Standing {
    complete: true,
    ..SILENT
};

#[test]
fn two_messages_one_of_them_empty() {
    let packet = [0x53, 0, 0, 0, 6, 0, 2, 0, 2, 0x48, 0x49, 0, 0];
    assert_eq!(packet.len(), 13);
    let Ok(Down::Sequenced {
        first,
        count,
        blocks,
    }) = read_down(&packet)
    else {
        panic!("not taken");
    };
    assert_eq!((first, count), (Sequence(6), 2));
    let messages: Vec<_> = Blocks::over(blocks).map(Result::unwrap).collect();
    assert_eq!(messages, [&b"HI"[..], b""]);

    let one_more = [&packet[..], &[0]].concat();
    assert_eq!(read_down(&one_more), Err(Refusal::Framing));

    let mut from_nought = packet;
    from_nought[4] = 0;
    assert_eq!(read_down(&from_nought), Err(Refusal::Blank));
}

#[test]
fn an_end_of_nothing_completes_a_fresh_record() {
    let packet = [0x45, 0, 0, 0, 0];
    assert_eq!(read_down(&packet), Ok(Down::End { total: 0 }));
    let taken = fresh().take(&mut area(), &packet, &mut []).unwrap();
    assert_eq!((taken.bytes, taken.messages), (0, 0));
    assert_eq!(taken.record.standing(), Ok(COMPLETE));
}

#[test]
fn the_last_numbers_of_ufo() {
    let message = &b"\0\x01!"[..];
    let one = |first: u32| [b"S", &first.to_be_bytes()[..], &[0, 1], message].concat();
    assert_eq!(
        read_down(&one(u32::MAX - 1)),
        Ok(Down::Sequenced {
            first: Sequence(4_294_967_294),
            count: 1,
            blocks: message,
        })
    );
    assert_eq!(read_down(&one(u32::MAX)), Err(Refusal::Bound));
    assert_eq!(
        read_down(&ufo_s(u32::MAX, &[])),
        Ok(Down::Sequenced {
            first: Sequence(4_294_967_295),
            count: 0,
            blocks: b"",
        })
    );
}

#[test]
fn a_request_for_two_messages_from_3() {
    let packet = [0x00, 0x07, 0x54, 0, 0, 0, 3, 0, 2];
    assert_eq!(read_up(&packet), Ok(1));
    let request = Up::Request {
        first: Sequence(3),
        count: 2,
    };
    assert_eq!(read_message(&packet, 0), Ok((request, 9)));
}

#[test]
fn a_memx_heartbeat_before_anything_was_published() {
    let record = Record::open_memx(SessionId(7));
    let mut packet = memx(0, 7, 0);
    let taken = record.take(&mut area(), &packet, &mut []).unwrap();
    assert_eq!(taken.record, record);
    assert_eq!(taken.record.top, Sequence(0));
    assert_eq!(taken.record.standing(), Ok(SILENT));
    packet[1] = 17;
    assert_eq!(memx_udp::read(&packet), Err(Refusal::Form));
    assert_eq!(number(record.take(&mut area(), &packet, &mut [])), 5);
}

#[test]
fn the_example_of_the_memx_paper() {
    let messages = [&b"The Quick Brown Fox"[..], b"Jumped Over the Lazy Dog"];
    let packet = memx_data(1, 6, &messages);
    assert_eq!(packet.len(), 67);
    assert_eq!(packet[22..41], *messages[0]);
    assert_eq!(packet[43..67], *messages[1]);
    let lent = blocks(&messages);
    let read = memx_udp::Packet::Sequenced {
        session: SessionId(1),
        first: Sequence(6),
        count: 2,
        extra: b"",
        blocks: &lent,
    };
    assert_eq!(memx_udp::read(&packet), Ok(read));
    assert_eq!(
        common::written(|slip| memx_udp::write(&read, slip)),
        Ok(packet)
    );
}

#[test]
fn soup_login_accepted() {
    let packet = soup_a("8841", "1");
    assert_eq!(packet[1..7], [b' '; 6]);
    assert_eq!(packet[11..30], [b' '; 19]);
    assert_eq!(
        soup::read(&packet),
        Ok(soup::Packet::Accepted {
            session: Name(*b"      8841"),
            next: Sequence(1),
        })
    );
    assert_eq!(soup::read(&soup_a("8841", "")), Err(Refusal::Blank));
    assert_eq!(
        soup::read(&soup_a("8841", "18446744073709551616")),
        Err(Refusal::Bound)
    );
}

#[test]
fn a_venue_pads_with_noughts() {
    let accepted = soup::Packet::Accepted {
        session: Name(*b"      8841"),
        next: Sequence(42),
    };
    let packet = soup_a("8841", "00000000000000000042");
    assert_eq!(soup::read(&packet), Ok(accepted));
    assert_eq!(
        common::written(|slip| soup::write(&accepted, slip)),
        Ok(soup_a("8841", "42"))
    );
}

#[test]
fn a_session_from_its_first_packet_to_its_last() {
    let (mut record, mut area) = (fresh(), area());
    let mut take = |record: &mut Record, packet: &[u8]| take_into(record, &mut area, packet);

    let delivered = take(&mut record, &ufo_numbered(1, 2));
    assert_eq!(delivered, Ok((common::numbered(1, 2), 2)));
    assert_eq!((record.next, record.top), (Sequence(3), Sequence(2)));

    assert_eq!(take(&mut record, &ufo_numbered(5, 1)), Ok((vec![], 0)));
    assert_eq!((record.next, record.top), (Sequence(3), Sequence(5)));
    assert_eq!(record.held, common::held(&[5]));
    assert_eq!(record.standing(), Ok(missing(3, 4)));

    let delivered = take(&mut record, &ufo_numbered(2, 3));
    assert_eq!(delivered, Ok((common::numbered(3, 3), 3)));
    assert_eq!((record.next, record.top), (Sequence(6), Sequence(5)));
    assert_eq!(record.held, common::held(&[]));
    assert_eq!(record.standing(), Ok(SILENT));

    assert_eq!(take(&mut record, &ufo_e(5)), Ok((vec![], 0)));
    assert_eq!(record.standing(), Ok(COMPLETE));

    let complete = record;
    assert_eq!(take(&mut record, &ufo_e(4)), Err(12));
    assert_eq!(take(&mut record, &ufo_s(9, &[])), Err(12));
    assert_eq!(take(&mut record, &ufo_s(3, &[])), Ok((vec![], 0)));
    assert_eq!(record, complete);
}

#[test]
fn three_timed_answers() {
    let patience = Patience::Measured {
        floor: 1.0,
        ceiling: 60_000.0,
    };
    let mut sheet = Sheet::default();
    for (sample, mean, spread, wait) in [
        (100.0, 100.0, 50.0, 300.0),
        (60.0, 95.0, 47.5, 285.0),
        (95.0, 95.0, 35.625, 237.5),
    ] {
        sheet = sheet.time(sample).unwrap();
        assert_eq!((sheet.mean, sheet.spread), (mean, spread));
        assert_eq!(patience.wait(&sheet), Ok(Some(wait)));
    }
}

#[test]
fn the_longest_message_is_sent_alone() {
    let mut bytes = vec![0; 4000];
    let mut log = Log::default();
    let longest = [b'x'; 1463];
    log.add(&mut bytes, &longest).unwrap();
    log.add(&mut bytes, b"after").unwrap();
    let mut slip = [0; 1472];
    assert_eq!(log.answer(&bytes, 1, 2, &mut slip), Ok(1472));
    assert_eq!(slip, *ufo_s(1, &[&longest]));
    assert_eq!(next_block(&slip[7..], 0).unwrap().length, 1463);

    let before = (log, bytes.clone());
    assert_eq!(log.add(&mut bytes, &[b'x'; 1464]), Err(Refusal::Oversize));
    assert_eq!((log, bytes), before);
}
