//! Packets, lawful and damaged, and what is to be written as one.

use super::{
    area, block, blocks, brimming, damage, decimal, decimal_number, few, length, long_blocks, near,
    number, place, sound_record, text,
};
use crate::dice::Dice;
use crate::limits::{MEMX, SOUP, UFO};
use hinurapay::flat::{hp_packet, hp_record};
use hinurapay::memx::MOST_EXTRA;

/// The count that is laid down for so many blocks: mostly the right one.
fn told(count: usize, dice: &mut Dice) -> u16 {
    match dice.below(16) {
        0 => near(count as u64, dice) as u16,
        _ => count as u16,
    }
}

/// A UFO packet from the server, with this number.
pub fn ufo_down(number: u64, dice: &mut Dice) -> Vec<u8> {
    let number = (number as u32).to_be_bytes();
    match dice.below(8) {
        0 => [b"A", &text::<10>(false, dice)[..], &number].concat(),
        1 => vec![b'J', dice.pick(b"ASASB\n")],
        2 => [b"E", &number[..]].concat(),
        _ => {
            let count = few(dice);
            let told = told(count, dice).to_be_bytes();
            [b"S", &number[..], &told, &blocks(count, dice)].concat()
        }
    }
}

/// How many extra bytes a MEMX-UDP header has: half of the time none, else mostly a few.
fn extras(dice: &mut Dice) -> usize {
    match dice.below(16) {
        0 => MOST_EXTRA - dice.below(3),
        1 => dice.below(MOST_EXTRA),
        2..=7 => 1 + dice.below(9),
        _ => 0,
    }
}

/// A MEMX-UDP packet of this session and number; at times its header length is not how long its
/// header is.
pub fn memx(session: u64, number: u64, dice: &mut Dice) -> Vec<u8> {
    let kind = dice.pick(&[0, 1, 2, 2, 2, 2]);
    let extras = extras(dice);
    let header_length = match dice.below(40) {
        0 => dice.byte(),
        1 => near(18 + extras as u64, dice) as u8,
        2 => near(18, dice) as u8,
        _ => 18 + extras as u8,
    };
    let mut packet = vec![kind, header_length];
    packet.extend(session.to_be_bytes());
    packet.extend(number.to_be_bytes());
    packet.extend(dice.bytes(extras));
    if kind == 2 {
        let (count, blocks) = if dice.one_in(3) {
            long_blocks(MEMX - 20 - extras, dice)
        } else {
            let count = few(dice);
            (count, blocks(count, dice))
        };
        packet.extend(told(count, dice).to_be_bytes());
        packet.extend(blocks);
    }
    packet
}

/// A MEMX-UDP packet to be read, at times damaged.
pub fn memx_to_read(dice: &mut Dice) -> Vec<u8> {
    let (session, number) = (number(dice), number(dice));
    let mut packet = memx(session, number, dice);
    damage(&mut packet, MEMX, dice);
    packet
}

/// A record, its area, and a datagram for it: mostly of the record's style and session, and about its
/// next number or one that is held then; seldom as much as there can be to deliver.
pub fn to_take(dice: &mut Dice) -> (hp_record, Vec<u8>, Vec<u8>) {
    if dice.one_in(64) {
        return brimming(dice);
    }
    let record = sound_record(dice);
    let area = area(record.held, dice);
    let first = match dice.below(8) {
        0 => number(dice),
        1 => near(record.top, dice),
        2 | 3 => record.next.wrapping_add(1 + dice.below(36) as u64),
        4 | 5 => record.next,
        _ => near(record.next, dice),
    };
    let (mut datagram, limit) = if (record.style == 2) != dice.one_in(40) {
        let session = if dice.one_in(12) {
            number(dice)
        } else {
            record.session
        };
        (memx(session, first, dice), MEMX)
    } else {
        (ufo_down(first, dice), UFO)
    };
    if dice.one_in(2) {
        damage(&mut datagram, limit, dice);
    }
    (record, area, datagram)
}

/// A UFO packet from the client, and where its blocks begin.
pub fn ufo_up(dice: &mut Dice) -> (Vec<u8>, Vec<u64>) {
    let (mut packet, mut places) = (Vec::new(), Vec::new());
    for _ in 0..1 + few(dice) {
        let message = match dice.below(6) {
            0 => [
                b"L",
                &text::<6>(false, dice)[..],
                &text::<10>(false, dice),
                &text::<10>(false, dice),
            ]
            .concat(),
            1 | 2 => {
                let (first, count) = (number(dice) as u32, number(dice) as u16);
                [b"T", &first.to_be_bytes()[..], &count.to_be_bytes()].concat()
            }
            3 => {
                let length = length(dice);
                [b"U", &dice.bytes(length)[..]].concat()
            }
            _ => vec![dice.pick(b"RO")],
        };
        places.push(packet.len() as u64);
        packet.extend((message.len() as u16).to_be_bytes());
        packet.extend(message);
    }
    (packet, places)
}

/// A UFO packet from the client to be read, at times damaged, and a place: mostly where a block begins,
/// or began before the damage.
pub fn ufo_up_to_read(dice: &mut Dice) -> (Vec<u8>, u64) {
    let (mut packet, places) = ufo_up(dice);
    damage(&mut packet, UFO, dice);
    let place = place(&places, packet.len(), dice);
    (packet, place)
}

/// What a message with so long a body is added to: nothing, a packet from the client, one with which
/// it comes to about the limit, or any of them damaged.
pub fn ufo_begun(body: usize, limit: usize, dice: &mut Dice) -> Vec<u8> {
    let mut packet = match dice.below(4) {
        0 => Vec::new(),
        1 => {
            // past the body the message has its length and type, and `T` and `L` have fields
            let message = body + 3 + dice.pick(&[0, 6, 26]);
            let length = (limit + dice.below(5)).saturating_sub(message + 4);
            let mut packet = block(length.max(1), dice);
            packet[2] = b'U';
            packet
        }
        _ => ufo_up(dice).0,
    };
    if dice.one_in(4) {
        damage(&mut packet, limit, dice);
    }
    packet
}

/// A Soup packet.
pub fn soup(dice: &mut Dice) -> Vec<u8> {
    let mut packet = match dice.below(8) {
        0 | 1 => [b"A", &text::<10>(true, dice)[..], &decimal(dice)].concat(),
        2 | 3 => [
            b"L",
            &text::<6>(false, dice)[..],
            &text::<10>(false, dice),
            &text::<10>(true, dice),
            &decimal(dice),
        ]
        .concat(),
        4 => vec![b'J', dice.pick(b"ASASB\n")],
        5 => vec![dice.pick(b"HZRO")],
        _ => {
            let length = match dice.below(200) {
                0 => dice.pick(&[4095, 4096, 4097, 4098]),
                _ => length(dice),
            };
            let mut payload = dice.bytes(length);
            without_linefeeds(&mut payload);
            [&[dice.pick(b"+SU")][..], &payload].concat()
        }
    };
    packet.push(b'\n');
    packet
}

/// A Soup packet to be read, at times damaged.
pub fn soup_to_read(dice: &mut Dice) -> Vec<u8> {
    let mut packet = soup(dice);
    damage(&mut packet, SOUP, dice);
    packet
}

/// Puts something else where a linefeed stands.
pub fn without_linefeeds(bytes: &mut [u8]) {
    for byte in bytes {
        if *byte == b'\n' {
            *byte = b'n';
        }
    }
}

/// The fields of a packet to be written: a type of these, or another, and anything in every field.
fn fields(types: &[u8], left: bool, dice: &mut Dice) -> hp_packet {
    let r#type = if dice.one_in(16) {
        dice.byte()
    } else {
        dice.pick(types)
    };
    hp_packet {
        r#type,
        reason: dice.pick(b"ASASB\n\0"),
        count: number(dice) as u16,
        user: text(false, dice),
        password: text(false, dice),
        name: text(left, dice),
        session: number(dice),
        number: number(dice),
        start: number(dice),
        length: number(dice),
        next: number(dice),
        extra: dice.byte(),
    }
}

/// A body to be written, and mostly the count of its blocks.
fn body(fields: &mut hp_packet, limit: usize, dice: &mut Dice) -> Vec<u8> {
    let count = few(dice);
    let mut body = match dice.below(3) {
        0 => Vec::new(),
        _ => blocks(count, dice),
    };
    if !body.is_empty() || count == 0 || dice.one_in(2) {
        fields.count = if body.is_empty() {
            dice.pick(&[0, 0, 1])
        } else {
            told(count, dice)
        };
    }
    if dice.one_in(1000) {
        body.resize(65_500 + dice.below(70), dice.byte());
    } else if dice.one_in(100) {
        body.resize(limit - dice.below(40), dice.byte());
    } else if dice.one_in(12) {
        damage(&mut body, limit, dice);
    }
    body
}

/// A packet to be written, of a type of these or another, and its body; mostly none where the type
/// is not among those that have one.
pub fn to_write(
    types: &[u8],
    bodied: &[u8],
    left: bool,
    limit: usize,
    dice: &mut Dice,
) -> (hp_packet, Vec<u8>) {
    let mut fields = fields(types, left, dice);
    let mut body = body(&mut fields, limit, dice);
    if !bodied.contains(&fields.r#type) && !dice.one_in(4) {
        body.clear();
    }
    (fields, body)
}

/// A Soup packet to be written, and its body.
pub fn soup_to_write(dice: &mut Dice) -> (hp_packet, Vec<u8>) {
    let (mut fields, mut body) = to_write(b"+SUHZROJAL", b"+SU", true, SOUP, dice);
    fields.number = decimal_number(dice);
    if !dice.one_in(4) {
        without_linefeeds(&mut body);
    }
    (fields, body)
}

/// A UFO message from the client to be written, and its data.
pub fn ufo_message_to_write(dice: &mut Dice) -> (hp_packet, Vec<u8>) {
    to_write(b"LTTURO", b"U", false, UFO, dice)
}

/// A MEMX-UDP packet to be written, the extra bytes of its header, and its body: no extra bytes, a
/// few, about as many as may be, or so many that with the body the whole is about the limit. One in
/// four packets of messages has long ones.
pub fn memx_to_write(dice: &mut Dice) -> (hp_packet, Vec<u8>, Vec<u8>) {
    let (mut fields, mut body) = to_write(&[0, 1, 2, 2], &[2], false, MEMX, dice);
    let extras = match dice.below(32) {
        // beside extra bytes and body a packet has 18 or 20 bytes
        0 => (MEMX + dice.below(7)).saturating_sub(22 + body.len()),
        1 | 2 => MOST_EXTRA - 1 + dice.below(4),
        3 => dice.below(600),
        _ => extras(dice),
    };
    if fields.r#type == 2 && dice.one_in(4) {
        let (count, blocks) = long_blocks((MEMX - 20).saturating_sub(extras), dice);
        (fields.count, body) = (told(count, dice), blocks);
    }
    (fields, dice.bytes(extras), body)
}
