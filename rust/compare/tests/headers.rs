//! MEMX-UDP headers of every length, read, taken and written: the two desks agree, and on what the
//! paper says, which is worked out here apart from both.

use compare::limits::{AREA, MEMX, SLOT};
use compare::twin::Twin;
use compare::{memx_both_ways, memx_written, taken, Difference};
use hinurapay::flat::{hp_packet, hp_read, hp_record, hp_take, hp_taken, hp_wrote};
use ordinary::flat;
use std::collections::BTreeSet;

/// The refusals that came up (0: none).
type CameUp = BTreeSet<u64>;

const SESSION: u64 = 0x0102_0304_0506_0708;

/// Numbers at which something changes.
const NUMBERS: [u64; 4] = [0, 1, u64::MAX - 1, u64::MAX];

/// The byte that stands where nothing else does.
const FILL: u8 = 0xee;

/// What both desks answered.
fn agreed<T>(answer: Result<T, Difference>) -> T {
    answer.unwrap_or_else(|difference| panic!("{}", difference.how))
}

/// The two bytes from a place on, as a number.
fn two(bytes: &[u8], place: usize) -> usize {
    usize::from(bytes[place]) << 8 | usize::from(bytes[place + 1])
}

/// The number in a header.
fn number(datagram: &[u8]) -> u64 {
    datagram[10..18]
        .iter()
        .fold(0, |number, &byte| number << 8 | u64::from(byte))
}

/// With which refusal the paper has a datagram answered (0: none).
fn ruled(datagram: &[u8]) -> u64 {
    let length = datagram.len();
    if length == 0 {
        return 1;
    }
    if length > MEMX {
        return 2;
    }
    if datagram[0] > 2 {
        return 3;
    }
    if length < 18 {
        return 4;
    }
    let header = usize::from(datagram[1]);
    if header < 18 {
        return 5;
    }
    let number = number(datagram);
    if datagram[0] < 2 {
        if length != header {
            return 4;
        }
        return if number > u64::MAX - 1 { 7 } else { 0 };
    }
    if length < header + 2 {
        return 4;
    }
    let count = two(datagram, header);
    let mut place = header + 2;
    for _ in 0..count {
        if place + 2 > length {
            return 4;
        }
        place += 2 + two(datagram, place);
    }
    if place != length {
        return 4;
    }
    if number == 0 || count == 0 {
        return 6;
    }
    if u128::from(number) + count as u128 > u128::from(u64::MAX) {
        return 7;
    }
    0
}

/// What a datagram must be read as.
fn expected(datagram: &[u8]) -> hp_read {
    let refusal = ruled(datagram);
    if refusal != 0 {
        return hp_read {
            refusal,
            ..hp_read::default()
        };
    }
    let header = usize::from(datagram[1]);
    let mut packet = hp_packet {
        r#type: datagram[0],
        session: SESSION,
        number: number(datagram),
        extra: datagram[1] - 18,
        ..hp_packet::default()
    };
    if datagram[0] == 2 {
        packet.count = two(datagram, header) as u16;
        packet.start = header as u64 + 2;
        packet.length = (datagram.len() - header - 2) as u64;
    }
    hp_read { refusal, packet }
}

/// So many extra bytes: what could be a count of one and an empty block, over and over.
fn extra(count: usize) -> Vec<u8> {
    b"\0\x01\0\0".iter().copied().cycle().take(count).collect()
}

/// A packet of these parts, whether or not it is lawful.
fn laid(r#type: u8, length: u8, number: u64, extra: &[u8], behind: &[u8]) -> Vec<u8> {
    let (session, number) = (SESSION.to_be_bytes(), number.to_be_bytes());
    [&[r#type, length], &session[..], &number, extra, behind].concat()
}

/// A block of so many bytes.
fn block(length: usize) -> Vec<u8> {
    [&(length as u16).to_be_bytes()[..], &vec![b'x'; length]].concat()
}

/// Counts and blocks to stand behind a header where there is so much room: none, such as are right in
/// some room and wrong in another, and one block that is right in just this room.
fn behind(r#type: u8, room: usize) -> Vec<Vec<u8>> {
    if r#type != 2 {
        return vec![vec![]];
    }
    let mut all = vec![
        b"\0\0".to_vec(),
        b"\0\x01\0\0".to_vec(),
        b"\0\x01\0\x02HI".to_vec(),
        b"\0\x02\0\0\0\x02HI".to_vec(),
        b"\xff\xff\0\0\0\0\0\0".to_vec(),
    ];
    if room >= 4 {
        all.push([b"\0\x01", &block(room - 4)[..]].concat());
    }
    all
}

/// Lengths of datagrams for a header length: near it, near the least one, near the limit, and near
/// UFO's.
fn lengths(header: usize) -> BTreeSet<usize> {
    let near = header.saturating_sub(3)..=header + 8;
    let near = near.chain(15..=26).chain(1471..=1474);
    near.chain(MEMX - 2..=MEMX + 4).collect()
}

/// Every datagram of a type with a header length.
fn datagrams(r#type: u8, header: u8) -> Vec<Vec<u8>> {
    // too short a header is laid as one of 18 bytes, so that nothing but its length is wrong
    let whole = usize::from(header).max(18);
    let mut all = Vec::new();
    for length in lengths(header.into()) {
        for behind in behind(r#type, length.saturating_sub(whole)) {
            for number in NUMBERS {
                let mut datagram = laid(r#type, header, number, &extra(whole - 18), &behind);
                datagram.resize(length, b'!');
                all.push(datagram);
            }
        }
    }
    all
}

/// A fresh record of the session.
fn fresh() -> hp_record {
    hp_record {
        style: 2,
        session: SESSION,
        next: 1,
        ..hp_record::default()
    }
}

/// An area in which nothing was ever held.
fn untouched() -> Vec<u8> {
    vec![FILL; AREA]
}

/// An area for each desk, lent to it again and again: none of the datagrams is such as to be held.
struct Desks {
    areas: [Vec<u8>; 2],
}

impl Desks {
    /// Takes a datagram into a fresh record by both desks, and says with which refusal they answered
    /// (0: none).
    fn take(&mut self, datagram: &[u8]) -> u64 {
        let [proved, plain] = &mut self.areas;
        let mut outs = [vec![FILL; datagram.len()], vec![FILL; datagram.len()]];
        let answer = hp_take(fresh(), proved, datagram, &mut outs[0]);
        let expected = flat::hp_take(fresh().twin(), plain, datagram, &mut outs[1]);
        assert_eq!(answer, expected.twin(), "{datagram:02x?}");
        assert_eq!(outs[0], outs[1], "{datagram:02x?}");
        answer.refusal
    }
}

/// Reads every datagram of a type by both desks, and takes it into a fresh record.
fn read(r#type: u8) -> CameUp {
    let mut came_up = CameUp::new();
    let areas = [untouched(), untouched()];
    let mut desks = Desks { areas };
    for datagram in (0..=255).flat_map(|header| datagrams(r#type, header)) {
        let expected = expected(&datagram);
        assert_eq!(
            agreed(memx_both_ways(&datagram)),
            expected,
            "{datagram:02x?}"
        );
        assert_eq!(desks.take(&datagram), expected.refusal, "{datagram:02x?}");
        came_up.insert(expected.refusal);
    }
    assert!(desks.areas.iter().all(|area| *area == untouched()));
    came_up
}

#[test]
fn every_header_length_is_read_as_the_paper_says() {
    assert_eq!(read(0), CameUp::from([0, 1, 2, 4, 5, 7]));
    assert_eq!(read(1), CameUp::from([0, 1, 2, 4, 5, 7]));
    assert_eq!(read(2), CameUp::from([0, 1, 2, 4, 5, 6, 7]));
    assert_eq!(read(3), CameUp::from([1, 2, 3]));
}

/// Four messages, as blocks.
const MESSAGES: [&[u8]; 4] = [b"\0\x03one", b"\0\0", b"\0\x05three", b"\0\x01!"];

/// A record that has message 5 as its next, and knows of 6.
fn midway() -> hp_record {
    hp_record {
        next: 5,
        top: 6,
        ..fresh()
    }
}

/// Takes a datagram, and asks that it delivers these messages and leaves this record and this area.
fn takes(datagram: &[u8], due: &[&[u8]], record: hp_record, area: &[u8]) {
    let took = agreed(taken(midway(), &untouched(), datagram, vec![FILL; 64]));
    let bytes = due.concat();
    let expected = hp_taken {
        refusal: 0,
        bytes: bytes.len() as u64,
        messages: due.len() as u64,
        record,
    };
    assert_eq!(took.answer, expected, "{datagram:02x?}");
    assert!(took.out.starts_with(&bytes), "{datagram:02x?}");
    assert!(took.out[bytes.len()..].iter().all(|&byte| byte == FILL));
    assert!(took.area == area, "{datagram:02x?}");
}

/// The four messages held from that number on: the full slots, and the area.
fn held_from(first: u64) -> (u32, Vec<u8>) {
    let (mut full, mut area) = (0, untouched());
    for (number, block) in (first..).zip(MESSAGES) {
        full |= 1 << number;
        area[number as usize * SLOT..][..block.len()].copy_from_slice(block);
    }
    (full, area)
}

#[test]
fn every_header_length_is_skipped_by_the_record() {
    let mut delivered = 0;
    for header in 18..=255 {
        let extra = extra(usize::from(header) - 18);
        for (r#type, number, top, ended) in [(0, 3, 6, 0), (0, 9, 9, 0), (1, 6, 6, 1), (1, 8, 8, 1)]
        {
            let after = hp_record {
                top,
                ended,
                ..midway()
            };
            let datagram = laid(r#type, header, number, &extra, b"");
            takes(&datagram, &[], after, &untouched());
        }
        let counted = [b"\0\x04", &MESSAGES.concat()[..]].concat();
        for first in 1..=7 {
            // of the messages `first` to `first + 3`, those from 5 on, if 5 is one of them; if 5 is
            // before them, all are held
            let had = 5_usize.saturating_sub(first as usize);
            let (due, (held, area)) = match first {
                1 => (&[][..], (0, untouched())),
                6 | 7 => (&[][..], held_from(first)),
                _ => (&MESSAGES[had..], (0, untouched())),
            };
            let after = hp_record {
                next: 5 + due.len() as u64,
                top: (first + 3).max(6),
                held,
                ..midway()
            };
            takes(&laid(2, header, first, &extra, &counted), due, after, &area);
            delivered += due.len();
        }
    }
    assert_eq!(delivered, 238 * (1 + 2 + 3 + 4));
}

/// How many extra bytes are tried in writing: as many as may be and more, and some up to more than
/// any packet has.
fn extras() -> impl Iterator<Item = usize> {
    let some = (301..MEMX - 32).step_by(67);
    (0..=300).chain(some).chain(MEMX - 32..=MEMX + 1)
}

/// Counts and bodies to be written behind so many extra bytes: none, short ones, and one block that
/// brings the packet near its limit or near UFO's.
fn bodies(extras: usize) -> Vec<(u16, Vec<u8>)> {
    let mut all = vec![
        (0, vec![]),
        (1, vec![]),
        (0, b"\0\0".to_vec()),
        (1, b"\0\0".to_vec()),
        (2, b"\0\0".to_vec()),
        (2, b"\0\x02HI\0\0".to_vec()),
        (1, b"!".to_vec()),
    ];
    // beside extra bytes and body a packet has 18 bytes, or with a count 20
    let lengths = (1471..=1474).chain(MEMX - 2..=MEMX + 4);
    let lengths = lengths.filter_map(|whole: usize| whole.checked_sub(22 + extras));
    all.extend(lengths.map(|length| (1, block(length))));
    all
}

/// With which refusal the paper has it answered that a packet of these parts is to be written, and the
/// packet.
fn ruled_in_writing(fields: &hp_packet, extra: &[u8], body: &[u8]) -> (u64, Vec<u8>) {
    let count = match fields.r#type {
        2 => fields.count.to_be_bytes().to_vec(),
        _ => vec![],
    };
    let behind = [&count, body].concat();
    let length = 18 + extra.len();
    let packet = laid(fields.r#type, length as u8, fields.number, extra, &behind);
    let refusal = if length + behind.len() > MEMX {
        2
    } else if fields.r#type > 2 {
        3
    } else if extra.len() > 237 {
        5
    } else {
        ruled(&packet)
    };
    (refusal, packet)
}

/// Writes by both desks into so much room, and asks that they write the packet, or nothing.
fn writes(fields: hp_packet, extra: &[u8], body: &[u8], room: usize) -> u64 {
    let (refusal, packet) = ruled_in_writing(&fields, extra, body);
    let (refusal, packet) = match refusal {
        0 if room < packet.len() => (9, vec![]),
        0 => (0, packet),
        _ => (refusal, vec![]),
    };
    let (answer, out) = agreed(memx_written(fields, extra, body, vec![FILL; room]));
    let expected = hp_wrote {
        refusal,
        bytes: packet.len() as u64,
    };
    let told = || format!("{fields:?} with {} extra bytes", extra.len());
    assert_eq!(answer, expected, "{}", told());
    assert!(out.starts_with(&packet), "{}", told());
    assert!(out[packet.len()..].iter().all(|&byte| byte == FILL));
    refusal
}

/// Writes every packet of a type, with just the room that it takes and with a byte less.
fn written(r#type: u8) -> CameUp {
    let mut came_up = CameUp::new();
    for extras in extras() {
        let extra = extra(extras);
        for (count, body) in bodies(extras) {
            let fields = hp_packet {
                r#type,
                count,
                session: SESSION,
                start: 77,
                length: 78,
                next: 79,
                extra: 80, // not looked at, like the three before it
                ..hp_packet::default()
            };
            let whole = 18 + extras + if r#type == 2 { 2 } else { 0 } + body.len();
            for number in NUMBERS {
                let fields = hp_packet { number, ..fields };
                for room in [whole, whole - 1] {
                    came_up.insert(writes(fields, &extra, &body, room));
                }
            }
        }
    }
    came_up
}

#[test]
fn every_length_of_extra_bytes_is_written_as_the_paper_says() {
    assert_eq!(written(0), CameUp::from([0, 2, 4, 5, 7, 9]));
    assert_eq!(written(1), CameUp::from([0, 2, 4, 5, 7, 9]));
    assert_eq!(written(2), CameUp::from([0, 2, 4, 5, 6, 7, 9]));
    assert_eq!(written(3), CameUp::from([2, 3]));
}
