//! Readers and writers held against each other over many packets, damaged ones among them.

mod common;

use common::{
    blocks, extended, memx, memx_data, soup_a, soup_l, spelling, take_with, ufo_e, ufo_s, Dice,
};
use ordinary::flat::*;
use ordinary::kinds::{Name, SessionId};
use ordinary::record::Record;

type Reader = fn(&[u8]) -> hp_read;
/// Writes fields, extra bytes where the protocol has them, and a body.
type Writer = fn(hp_packet, &[u8], &[u8], &mut [u8]) -> hp_wrote;

fn read_one_message(packet: &[u8]) -> hp_read {
    let whole = hp_ufo_read_up(packet);
    if whole.refusal != 0 || whole.packet.count != 1 {
        return whole;
    }
    hp_ufo_read_message(packet, 0)
}

/// Damages a packet in one of several ways, or not at all.
fn damage(packet: &mut Vec<u8>, dice: &mut Dice) {
    let place = dice.below(packet.len().max(1));
    match dice.below(8) {
        0 => packet.truncate(place),
        1 => packet.push(dice.pick(b"\n \0x")),
        2 if !packet.is_empty() => packet[place] = dice.pick(b"\n \0x19Z\xff"),
        3 if !packet.is_empty() => packet[place] ^= 1 << dice.below(8),
        4 if !packet.is_empty() => _ = packet.remove(place),
        5 => packet.insert(place, dice.pick(b"\n \0x0")),
        _ => {}
    }
}

/// How many bytes a message has; only in MEMX-UDP may it be longer than a slot.
fn length(protocol: usize, dice: &mut Dice) -> usize {
    if protocol == 2 && dice.one_in(4) {
        dice.pick(&[1450, 1470, 1471, 2900, 8950])
    } else {
        dice.pick(&[0, 0, 1, 5, 30])
    }
}

fn specimen(protocol: usize, dice: &mut Dice) -> Vec<u8> {
    let count = dice.below(4);
    let messages: Vec<Vec<u8>> = (0..count)
        .map(|_| {
            let length = length(protocol, dice);
            dice.bytes(length)
        })
        .collect();
    let lent: Vec<&[u8]> = messages.iter().map(Vec::as_slice).collect();
    let first = dice.pick(&[0, 1, 6, u32::MAX - 3, u32::MAX - 1, u32::MAX]);
    let text = dice.pick(&["", "8841", "ABCdefghij", "a b", "x"]);
    let user = dice.pick(&["user1", "user1", "u", ""]);
    let digits = dice.pick(&[
        "",
        "0",
        "1",
        "00",
        "0 7",
        "42",
        "00000000000000000042",
        "18446744073709551615",
        "18446744073709551616",
    ]);
    match protocol {
        0 => match dice.below(4) {
            0 => {
                let name = format!("{text:<10}").into_bytes();
                [b"A", &name[..], &first.to_be_bytes()].concat()
            }
            1 => vec![b'J', dice.pick(b"ASB\n")],
            2 => ufo_s(first, &lent),
            _ => ufo_e(first),
        },
        1 => {
            let message = match dice.below(5) {
                0 => format!("L{user:<6}{text:<10}{text:<10}").into_bytes(),
                1 => {
                    let count = dice.pick(&[0, 1, u16::MAX]);
                    [b"T", &first.to_be_bytes()[..], &count.to_be_bytes()].concat()
                }
                2 => [b"U", &lent.concat()[..]].concat(),
                3 => b"R".to_vec(),
                _ => b"O".to_vec(),
            };
            blocks(&[&message])
        }
        2 => {
            let number = dice.pick(&[0, 1, 9, u64::MAX - 3, u64::MAX - 1, u64::MAX]);
            let packet = match dice.below(3) {
                0 => memx(0, 7, number),
                1 => memx(1, 7, number),
                _ => memx_data(7, number, &lent),
            };
            let extra = dice.pick(&[0, 0, 0, 1, 2, 30, 237]);
            extended(&packet, &dice.bytes(extra))
        }
        _ => match dice.below(7) {
            0 => soup_a(text, digits),
            1 => soup_l(user, text, text, digits),
            2 => vec![b'J', dice.pick(b"ASB\n"), b'\n'],
            3 => common::soup(dice.pick(b"HZRO"), b""),
            _ => common::soup(dice.pick(b"+SU"), &lent.concat()),
        },
    }
}

const PROTOCOLS: [(Reader, Writer); 4] = [
    (hp_ufo_read_down, |fields, _, body, out| {
        hp_ufo_write_down(fields, body, out)
    }),
    (read_one_message, |fields, _, body, out| {
        hp_ufo_write_message(fields, body, out)
    }),
    (hp_memx_read, hp_memx_write),
    (hp_soup_read, |fields, _, body, out| {
        hp_soup_write(fields, body, out)
    }),
];

#[test]
fn whatever_a_reader_takes_is_written_again_as_it_was_or_as_it_is_spelt() {
    for (protocol, (read, write)) in PROTOCOLS.into_iter().enumerate() {
        let mut dice = Dice::seeded(protocol as u64);
        let mut seen = [0; 9];
        let (mut longer, mut jumbo, mut respelt) = (0, 0, 0);
        for _ in 0..10_000 {
            let mut packet = specimen(protocol, &mut dice);
            damage(&mut packet, &mut dice);
            let answer = read(&packet);
            seen[answer.refusal as usize] += 1;
            if answer.refusal != 0 {
                assert_eq!(answer.packet, hp_packet::default(), "{packet:?}");
                continue;
            }
            let fields = answer.packet;
            if protocol == 1 && fields.r#type == 0 {
                continue; // damage made it two messages
            }
            let body = &packet[fields.start as usize..][..fields.length as usize];
            let extra = match fields.extra {
                0 => &[],
                length => &packet[18..][..length.into()],
            };
            longer += usize::from(fields.extra > 0);
            jumbo += usize::from(packet.len() > 1472);
            let due = if protocol == 3 {
                spelling(&packet)
            } else {
                packet.clone()
            };
            respelt += usize::from(due != packet);
            let mut out = vec![0xee; packet.len() + 3];
            let wrote = write(fields, extra, body, &mut out);
            assert_eq!((wrote.refusal, wrote.bytes), (0, packet.len() as u64));
            assert_eq!(out[..packet.len()], due);
            assert_eq!(out[packet.len()..], [0xee; 3]);
            assert_eq!(read(&due), answer);
        }
        assert!(seen[0] > 1000, "only {} were taken", seen[0]);
        let given = [3, 4, 5, 6].map(|refusal| seen[refusal]);
        assert!(given.iter().all(|&times| times > 25), "{seen:?}");
        // only MEMX-UDP has extra bytes, and packets of more than 1,472; only Soup has noughts before
        // a number
        let only = |one, least| if protocol == one { least..10_000 } else { 0..1 };
        assert!(only(2, 1000).contains(&longer), "{longer} in {protocol}");
        assert!(only(2, 200).contains(&jumbo), "{jumbo} in {protocol}");
        assert!(only(3, 50).contains(&respelt), "{respelt} in {protocol}");
    }
}

/// The packet that would be written for these fields, whether or not it is lawful. A number too
/// wide for its field is laid as 1; the second answer says whether that was so. A header too long
/// for its length byte is laid as one of no bytes, which no reader takes either.
fn laid(protocol: usize, fields: &hp_packet, extra: &[u8], body: &[u8]) -> (Vec<u8>, bool) {
    let wide = fields.number > u64::from(u32::MAX);
    let four = if wide { 1 } else { fields.number as u32 }.to_be_bytes();
    let eight = fields.number.to_be_bytes();
    let count = fields.count.to_be_bytes();
    let hp_packet {
        user,
        password,
        name,
        reason,
        ..
    } = *fields;
    let kind = [fields.r#type];
    let digits = format!("{:>20}", fields.number).into_bytes();
    let session = fields.session.to_be_bytes();
    let header = [u8::try_from(18 + extra.len()).unwrap_or(0)];
    let (fixed, narrow): (Vec<&[u8]>, bool) = match (protocol, fields.r#type) {
        (0, b'A') => (vec![&kind, &name, &four], true),
        (0, b'J') => (vec![&kind, std::slice::from_ref(&reason)], false),
        (0, b'S') => (vec![&kind, &four, &count], true),
        (0, b'E') => (vec![&kind, &four], true),
        (1, b'L') => (vec![&kind, &user, &password, &name], false),
        (1, b'T') => (vec![&kind, &four, &count], true),
        (2, 2) => (vec![&kind, &header, &session, &eight, extra, &count], false),
        (2, _) => (vec![&kind, &header, &session, &eight, extra], false),
        (3, b'J') => (vec![&kind, std::slice::from_ref(&reason)], false),
        (3, b'A') => (vec![&kind, &name, &digits], false),
        (3, b'L') => (vec![&kind, &user, &password, &name, &digits], false),
        _ => (vec![&kind], false),
    };
    let mut packet = fixed.concat();
    packet.extend(body);
    match protocol {
        1 => packet = blocks(&[&packet]),
        3 => packet.push(b'\n'),
        _ => {}
    }
    (packet, wide && narrow)
}

/// The types of each protocol, and some that it has not.
const TYPES: [&[u8]; 4] = [b"AJSEX", b"LTUROX", &[0, 1, 2, 3], b"+SUHZROJALX\n"];

/// Fields to be written, with anything in each.
fn any_fields(protocol: usize, dice: &mut Dice) -> hp_packet {
    let name = [b"8841      ", b"      8841", b"          ", b"8 841     "];
    let mut fields = hp_packet {
        r#type: dice.pick(TYPES[protocol]),
        reason: dice.pick(b"ASB\n"),
        count: dice.pick(&[0, 1, 2, u16::MAX]),
        user: *dice.pick(&[b"user1 ", b"      ", b" user "]),
        password: *dice.pick(&[b"password  ", b"          ", b" password "]),
        name: *dice.pick(&name),
        session: dice.roll(),
        number: dice.pick(&[
            0,
            1,
            77,
            u64::from(u32::MAX) - 1,
            u64::from(u32::MAX),
            u64::from(u32::MAX) + 1,
            u64::MAX - 1,
            u64::MAX,
        ]),
        start: dice.roll(),
        length: dice.roll(),
        next: dice.roll(),
        extra: dice.roll() as u8,
    };
    if dice.one_in(12) {
        fields.name[dice.below(10)] = dice.pick(b"\n-\0");
    }
    fields
}

/// Extra bytes to be written, where the protocol has them: none, a few, about as many as may be, or
/// so many that with the body the packet is near its limit.
fn any_extra(protocol: usize, body: &[u8], dice: &mut Dice) -> Vec<u8> {
    if protocol != 2 {
        return vec![];
    }
    let length = match dice.below(8) {
        0 => 236 + dice.below(4),
        1 => dice.below(300),
        2 => (8972 + dice.below(7)).saturating_sub(22 + body.len()),
        3 => 1 + dice.below(9),
        _ => 0,
    };
    dice.bytes(length)
}

/// A body to be written, at times one that brings the packet near its limit.
fn any_body(limit: usize, dice: &mut Dice) -> Vec<u8> {
    let messages = [&b""[..], b"a", b"bc"];
    match dice.below(6) {
        0 => blocks(&messages[..1 + dice.below(2)]),
        1 => dice.pick(&[&b"abc"[..], b"a\nb", b"\0"]).to_vec(),
        2 => vec![0; limit - dice.below(50)],
        3 => {
            let length = limit - 2 - dice.below(30);
            blocks(&[&vec![b'x'; length]])
        }
        _ => vec![],
    }
}

#[test]
fn a_writer_refuses_as_the_reader_would_refuse_the_packet() {
    for (protocol, (read, write)) in PROTOCOLS.into_iter().enumerate() {
        let mut dice = Dice::seeded(1000 + protocol as u64);
        let limit = [1472, 1472, 8972, 4098][protocol];
        let mut seen = [0; 9];
        for _ in 0..10_000 {
            let fields = any_fields(protocol, &mut dice);
            let body = any_body(limit, &mut dice);
            let extra = any_extra(protocol, &body, &mut dice);
            let (packet, wide) = laid(protocol, &fields, &extra, &body);
            let expected = match read(&packet).refusal {
                0 if wide => 7,
                refusal => refusal,
            };
            seen[expected as usize] += 1;
            let mut out = [0xee; 9000];
            let wrote = write(fields, &extra, &body, &mut out);
            let bytes = if expected == 0 { packet.len() } else { 0 };
            assert_eq!(wrote.refusal, expected, "{fields:?} {extra:?} {body:?}");
            assert_eq!(wrote.bytes, bytes as u64);
            assert_eq!(out[..bytes], packet[..bytes]);
            assert_eq!(out[bytes..], [0xee; 9000][bytes..]);
        }
        for refusal in [0, 2, 3, 4, 5, 6, 7] {
            // Soup's numbers fit their field whatever they are
            let never = protocol == 3 && refusal == 7;
            assert_eq!(seen[refusal] == 0, never, "{refusal} in {protocol}");
        }
    }
}

/// Nothing, or a packet from the client of one or two messages, which may be damaged or long.
fn begun(dice: &mut Dice) -> Vec<u8> {
    let mut packet = match dice.below(4) {
        0 => return vec![],
        1 => blocks(&[&vec![b'U'; 1400 + dice.below(75)]]),
        _ => [specimen(1, dice), specimen(1, dice)].concat(),
    };
    damage(&mut packet, dice);
    packet
}

/// How adding a message must be refused: by what the reader says of the packet before and after.
fn refused_in_adding(before: &[u8], message: &(Vec<u8>, bool), used: usize, room: usize) -> u64 {
    if used > room {
        return 4;
    }
    let there = hp_ufo_read_up(&before[..used]).refusal;
    if used > 0 && there != 0 {
        return there;
    }
    let whole = [&before[..used], &message.0].concat();
    match hp_ufo_read_up(&whole).refusal {
        0 if message.1 => 7,
        0 if whole.len() > room => 9,
        refusal => refusal,
    }
}

#[test]
fn adding_refuses_as_the_reader_would_refuse_the_packets_before_and_after() {
    let mut dice = Dice::seeded(1472);
    let mut seen = [0; 10];
    for _ in 0..20_000 {
        let mut out = begun(&mut dice);
        let used = match dice.below(8) {
            0 => dice.below(out.len() + 5),
            _ => out.len(),
        };
        let spare = dice.pick(&[0, 3, 9, 29, 1500]);
        out.extend(vec![0xee; spare]);
        let fields = any_fields(1, &mut dice);
        let left = 1472_usize.saturating_sub(used).max(50);
        let body = any_body(left, &mut dice);
        let message = laid(1, &fields, b"", &body);
        let before = out.clone();
        let expected = refused_in_adding(&before, &message, used, out.len());
        seen[expected as usize] += 1;
        let wrote = hp_ufo_add_message(fields, &body, &mut out, used as u64);
        assert_eq!(wrote.refusal, expected, "{fields:?} behind {used}");
        let whole = if expected == 0 {
            [&before[..used], &message.0].concat()
        } else {
            vec![]
        };
        assert_eq!(wrote.bytes, whole.len() as u64);
        assert_eq!(out[..whole.len()], whole);
        assert_eq!(out[whole.len()..], before[whole.len()..]);
    }
    for refusal in [0, 2, 3, 4, 5, 6, 7, 9] {
        assert!(seen[refusal] > 50, "{refusal} came {} times", seen[refusal]);
    }
}

/// Takes datagrams into one record after another, with room that is too little for some of them, and
/// asks that what is refused changes nothing, and that these refusals come up (0: none).
fn refusals_change_nothing(
    fresh: Record,
    room: usize,
    datagram: fn(&mut Dice) -> Vec<u8>,
    refusals: &[usize],
) {
    let mut dice = Dice::seeded(16);
    let (mut record, mut area) = (fresh, common::area());
    let mut seen = [0; 17];
    for turn in 0..10_000 {
        if turn % 50 == 0 {
            record = fresh;
        }
        let mut datagram = datagram(&mut dice);
        damage(&mut datagram, &mut dice);
        let (before, area_before) = (record, common::copied(&area));
        match take_with(room, &mut record, &mut area, &datagram) {
            Ok((tape, messages)) => {
                assert_eq!(record.check(), Ok(()));
                assert_eq!(record.next.0 - before.next.0, messages);
                assert!(record.top >= before.top && record.ended >= before.ended);
                let delivered = ordinary::blocks::Blocks::over(&tape);
                assert_eq!(delivered.count() as u64, messages);
                let early = record.held != before.held && messages == 0;
                assert!(area == area_before || early, "only what is held is laid");
                seen[0] += 1;
            }
            Err(refusal) => seen[usize::from(refusal)] += 1,
        }
    }
    for &refusal in refusals {
        assert!(seen[refusal] > 10, "{refusal}: {}", seen[refusal]);
    }
}

#[test]
fn a_refused_datagram_leaves_record_area_and_tape_alone() {
    refusals_change_nothing(
        Record::open_ufo(Name(*b"8841      ")).unwrap(),
        30,
        |dice| {
            let count = 1 + dice.below(4) as u16;
            let first = 1 + dice.below(12) as u32;
            match dice.below(6) {
                0 => ufo_s(first, &[]),
                1 => ufo_e(first),
                2 => specimen(0, dice),
                _ => common::ufo_numbered(first, count),
            }
        },
        &[0, 3, 4, 5, 6, 7, 9, 12, 16],
    );
}

#[test]
fn a_refused_jumbo_datagram_leaves_record_area_and_tape_alone() {
    refusals_change_nothing(
        Record::open_memx(SessionId(7)),
        5000,
        |dice| {
            let first = 1 + dice.roll() % 12;
            let messages = [&[1; 12][..], &[2; 1470], &[3; 1471], &[4; 4000], &[5; 8951]];
            let sent = [dice.pick(&messages), dice.pick(&messages[..4])];
            match dice.below(12) {
                0 => memx(0, 7, first),
                1 => memx(1, 7, first),
                2 => memx_data(8, first, &sent),
                3 => specimen(2, dice),
                _ => memx_data(7, first, &sent[dice.below(2)..]),
            }
        },
        &[0, 2, 3, 4, 5, 6, 7, 9, 11, 12],
    );
}
