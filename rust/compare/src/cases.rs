//! The cases of every function of the C face.

mod adding;
mod pieces;
mod record;

pub use adding::ToAdd;
pub use pieces::fed;
pub use record::{taken, ToTake};

use crate::both::{blank, both, Agreed, Difference};
use crate::dice::Dice;
use crate::limits::{MEMX, TCP, UFO};
use crate::make;
use crate::spelling::spelling;
use crate::twin::Twin;
use crate::Case;
use hinurapay::flat::{hp_packet, hp_read, hp_tcp, hp_wrote};
use ordinary::flat as plain;

/// More than any packet has beside its body.
const FIXED: usize = 64;

/// Every function of the face with its cases.
pub const FUNCTIONS: [(&str, Case); 30] = [
    ("hp_soup_read", soup_read),
    ("hp_ufo_read_down", ufo_read_down),
    ("hp_ufo_read_up", ufo_read_up),
    ("hp_ufo_read_message", ufo_read_message),
    ("hp_memx_read", memx_read),
    ("hp_next_block", next_block),
    ("hp_soup_write", soup_write),
    ("hp_ufo_write_down", ufo_write_down),
    ("hp_ufo_write_message", ufo_write_message),
    ("hp_ufo_add_message", adding::add_message),
    ("hp_memx_write", memx_write),
    ("hp_soup_take", pieces::take),
    ("hp_tcp_read", tcp_read),
    ("hp_tcp_write", tcp_write),
    ("hp_open_ufo", record::open_ufo),
    ("hp_open_memx", record::open_memx),
    ("hp_take", record::take),
    ("hp_standing_of", record::standing_of),
    ("hp_missing_range", record::missing_range),
    ("hp_time", time),
    ("hp_wait_of", wait_of),
    ("hp_ask", record::ask),
    ("hp_line_lost", line_lost),
    ("hp_heartbeat_due", heartbeat_due),
    ("hp_log_add", log_add),
    ("hp_log_add_many", log_add_many),
    ("hp_log_declare_end", log_declare_end),
    ("hp_log_answer", log_answer),
    ("hp_log_heartbeat", log_heartbeat),
    ("hp_log_end_packet", log_end_packet),
];

/// Room for an output of which so much is needed: too little, just enough, or more.
fn room(needed: u64, dice: &mut Dice) -> Vec<u8> {
    let needed = needed as usize;
    blank(match dice.below(8) {
        0 => dice.below(needed + 1),
        1 => needed.saturating_sub(1),
        2 => needed + 1,
        // what is refused needs none, but here a packet without a body would have room
        3 => needed + FIXED,
        _ => needed,
    })
}

fn soup_read(dice: &mut Dice) -> Result<u64, Difference> {
    soup_both_ways(&make::soup_to_read(dice))
}

/// Reads a Soup packet by both desks; what they take they write again as its spelling, which they
/// read as the same packet. Says with which refusal they answered (0: none).
pub fn soup_both_ways(packet: &[u8]) -> Result<u64, Difference> {
    let read = both!(hp_soup_read(bytes); lent bytes = packet)?;
    if read.answer.refusal == 0 {
        let spelling = spelling(packet);
        soup_laid(read.answer.packet, packet)?.held_against(&spelling)?;
        both!(hp_soup_read(bytes); lent bytes = &spelling)?.same_as(&read.answer, packet)?;
    }
    Ok(read.refusal())
}

/// Writes the fields of a Soup packet by both desks; what they write is that packet. Says with
/// which refusal they answered (0: none).
pub fn soup_written(fields: hp_packet, packet: &[u8]) -> Result<u64, Difference> {
    let wrote = soup_laid(fields, packet)?;
    match wrote.answer.refusal {
        0 => wrote.held_against(packet).map(|()| 0),
        refusal => Ok(refusal),
    }
}

/// Writes the fields of a Soup packet, and the body that it has, with just its room.
fn soup_laid(fields: hp_packet, packet: &[u8]) -> Result<Agreed<hp_wrote>, Difference> {
    let body = &packet[fields.start as usize..][..fields.length as usize];
    both!(hp_soup_write(fields, body, out); lent body = body; room out = blank(packet.len()))
}

fn ufo_read_down(dice: &mut Dice) -> Result<u64, Difference> {
    let number = make::number(dice);
    let mut packet = make::ufo_down(number, dice);
    make::damage(&mut packet, UFO, dice);
    both!(hp_ufo_read_down(bytes); lent bytes = &packet).map(Agreed::refusal)
}

fn ufo_read_up(dice: &mut Dice) -> Result<u64, Difference> {
    let (packet, _) = make::ufo_up_to_read(dice);
    both!(hp_ufo_read_up(bytes); lent bytes = &packet).map(Agreed::refusal)
}

fn memx_read(dice: &mut Dice) -> Result<u64, Difference> {
    memx_both_ways(&make::memx_to_read(dice)).map(|read| read.refusal)
}

/// Reads a MEMX-UDP packet by both desks; what they take they write again with the same bytes. Says
/// what they answered.
pub fn memx_both_ways(packet: &[u8]) -> Result<hp_read, Difference> {
    let read = both!(hp_memx_read(bytes); lent bytes = packet)?.answer;
    if read.refusal == 0 {
        let fields = read.packet;
        let extra = &packet[18..][..fields.extra.into()];
        let body = &packet[fields.start as usize..][..fields.length as usize];
        memx_laid(fields, extra, body, blank(packet.len()))?.held_against(packet)?;
    }
    Ok(read)
}

/// Writes a MEMX-UDP packet by both desks into the same output; with which refusal they answered
/// (0: none), and the output as both left it.
pub fn memx_written(
    fields: hp_packet,
    extra: &[u8],
    body: &[u8],
    out: Vec<u8>,
) -> Result<(hp_wrote, Vec<u8>), Difference> {
    let Agreed { answer, out, .. } = memx_laid(fields, extra, body, out)?;
    Ok((answer, out))
}

/// Writes a MEMX-UDP packet. Extra bytes and body are lent in one piece, so that a smaller case can
/// be looked for in both.
pub(crate) fn memx_laid(
    fields: hp_packet,
    extra: &[u8],
    body: &[u8],
    out: Vec<u8>,
) -> Result<Agreed<hp_wrote>, Difference> {
    let lent = [extra, body].concat();
    let extras = extra.len();
    both!(
        hp_memx_write(fields, first(lent, extras), behind(lent, extras), out);
        lent lent = &lent; room out = out
    )
    .map_err(|difference| difference.behind(&format!("extra bytes: the first {extras}")))
}

/// The first so many bytes, or all of them if they are fewer.
fn first(bytes: &[u8], count: usize) -> &[u8] {
    &bytes[..count.min(bytes.len())]
}

/// What stands behind the first so many bytes.
fn behind(bytes: &[u8], count: usize) -> &[u8] {
    &bytes[count.min(bytes.len())..]
}

fn ufo_read_message(dice: &mut Dice) -> Result<u64, Difference> {
    let (packet, place) = make::ufo_up_to_read(dice);
    both!(hp_ufo_read_message(bytes, place); lent bytes = &packet).map(Agreed::refusal)
}

fn next_block(dice: &mut Dice) -> Result<u64, Difference> {
    let (mut bytes, mut places) = (Vec::new(), Vec::new());
    for _ in 0..dice.below(5) {
        places.push(bytes.len() as u64);
        bytes.extend(make::blocks(1, dice));
    }
    if dice.one_in(20) {
        places.push(bytes.len() as u64);
        bytes.extend(make::long_blocks(MEMX, dice).1);
    }
    make::damage(&mut bytes, MEMX, dice);
    let place = make::place(&places, bytes.len(), dice);
    both!(hp_next_block(lent, place); lent lent = &bytes).map(Agreed::refusal)
}

/// Writes fields and a body by the function named.
macro_rules! writing {
    ($function:ident, $fields:expr, $body:expr, $dice:expr) => {{
        let fields = $fields;
        let mut ample = vec![0; $body.len() + FIXED];
        let needed = plain::$function(fields.twin(), &$body, &mut ample).bytes;
        both!($function(fields, body, out); lent body = &$body; room out = room(needed, $dice))
            .map(Agreed::refusal)
    }};
}

fn soup_write(dice: &mut Dice) -> Result<u64, Difference> {
    let (fields, body) = make::soup_to_write(dice);
    writing!(hp_soup_write, fields, body, dice)
}

fn ufo_write_down(dice: &mut Dice) -> Result<u64, Difference> {
    let (fields, body) = make::to_write(b"ASSSJE", b"S", false, UFO, dice);
    writing!(hp_ufo_write_down, fields, body, dice)
}

fn ufo_write_message(dice: &mut Dice) -> Result<u64, Difference> {
    let (fields, body) = make::ufo_message_to_write(dice);
    writing!(hp_ufo_write_message, fields, body, dice)
}

fn memx_write(dice: &mut Dice) -> Result<u64, Difference> {
    let (fields, extra, body) = make::memx_to_write(dice);
    let mut ample = vec![0; extra.len() + body.len() + FIXED];
    let needed = plain::hp_memx_write(fields.twin(), &extra, &body, &mut ample).bytes;
    memx_laid(fields, &extra, &body, room(needed, dice)).map(Agreed::refusal)
}

fn tcp_read(dice: &mut Dice) -> Result<u64, Difference> {
    let mut packet = make::tcp(dice);
    make::damage(&mut packet, TCP, dice);
    let read = both!(hp_tcp_read(bytes); lent bytes = &packet)?;
    if read.answer.refusal == 0 {
        tcp_written_again(read.answer.packet, &packet)?;
    }
    Ok(read.refusal())
}

/// Writes what was read: by both desks with the same bytes.
fn tcp_written_again(fields: hp_tcp, packet: &[u8]) -> Result<(), Difference> {
    let body = &packet[fields.start as usize..][..fields.length as usize];
    both!(hp_tcp_write(fields, body, out); lent body = body; room out = blank(packet.len()))?
        .held_against(packet)
}

fn tcp_write(dice: &mut Dice) -> Result<u64, Difference> {
    let (fields, body) = make::tcp_to_write(dice);
    writing!(hp_tcp_write, fields, body, dice)
}

fn time(dice: &mut Dice) -> Result<u64, Difference> {
    let sheet = make::sheet(dice);
    let sample = make::time(60_000.0, dice);
    both!(hp_time(sheet, sample)).map(Agreed::refusal)
}

fn wait_of(dice: &mut Dice) -> Result<u64, Difference> {
    let (sheet, patience) = (make::sheet(dice), make::patience(dice));
    both!(hp_wait_of(sheet, patience)).map(Agreed::refusal)
}

/// A clock reading and an earlier one, mostly about so far apart.
fn ticks(apart: u64, dice: &mut Dice) -> (u64, u64) {
    let then = make::number(dice);
    let now = match dice.below(4) {
        0 => make::number(dice),
        1 => make::near(then, dice),
        2 => dice.roll(),
        _ => make::near(then.wrapping_add(apart), dice),
    };
    (now, then)
}

fn line_lost(dice: &mut Dice) -> Result<u64, Difference> {
    let (now, heard) = ticks(10_000, dice);
    both!(hp_line_lost(now, heard)).map(Agreed::refusal)
}

fn heartbeat_due(dice: &mut Dice) -> Result<u64, Difference> {
    let (now, sent) = ticks(1000, dice);
    both!(hp_heartbeat_due(now, sent)).map(Agreed::refusal)
}

fn log_add(dice: &mut Dice) -> Result<u64, Difference> {
    let (log, mut bytes) = make::log(dice);
    let length = match dice.below(40) {
        0 => dice.pick(&[1462, 1463, 1464, 2000, 65_535, 65_536, 65_540]),
        _ => dice.below(30),
    };
    let message = dice.bytes(length);
    if dice.one_in(2) {
        bytes.resize(bytes.len() + length + dice.below(4), 0x3c);
    }
    both!(hp_log_add(log, tape, lent); lent lent = &message; room tape = bytes).map(Agreed::refusal)
}

fn log_add_many(dice: &mut Dice) -> Result<u64, Difference> {
    let (log, mut bytes) = make::log(dice);
    let mut many = make::many(dice);
    if dice.one_in(4) {
        make::damage(&mut many, UFO, dice);
    }
    if !dice.one_in(3) {
        // the room that is needed, or a byte or two more or less
        bytes.truncate(log.used as usize);
        bytes.extend(blank((many.len() + dice.below(5)).saturating_sub(2)));
    }
    both!(hp_log_add_many(log, tape, lent); lent lent = &many; room tape = bytes)
        .map(Agreed::refusal)
}

fn log_declare_end(dice: &mut Dice) -> Result<u64, Difference> {
    let (log, bytes) = make::log(dice);
    both!(hp_log_declare_end(log, tape); lent tape = &bytes).map(Agreed::refusal)
}

fn log_answer(dice: &mut Dice) -> Result<u64, Difference> {
    let (log, bytes) = make::log(dice);
    let first = match dice.below(4) {
        0 => make::number(dice) as u32,
        1 => make::near(log.count, dice) as u32,
        _ => 1 + dice.below(log.count.clamp(1, 1000) as usize) as u32,
    };
    let count = match dice.below(3) {
        0 => make::number(dice) as u16,
        1 => u16::MAX,
        _ => 1 + dice.below(8) as u16,
    };
    let room = match dice.below(8) {
        0 => make::near(UFO as u64, dice) as usize,
        1 => dice.below(UFO),
        _ => UFO,
    };
    both!(hp_log_answer(log, tape, first, count, out); lent tape = &bytes; room out = blank(room))
        .map(Agreed::refusal)
}

fn log_heartbeat(dice: &mut Dice) -> Result<u64, Difference> {
    let (log, bytes) = make::log(dice);
    both!(hp_log_heartbeat(log, tape, out); lent tape = &bytes; room out = room(7, dice))
        .map(Agreed::refusal)
}

fn log_end_packet(dice: &mut Dice) -> Result<u64, Difference> {
    let (log, bytes) = make::log(dice);
    both!(hp_log_end_packet(log, tape, out); lent tape = &bytes; room out = room(5, dice))
        .map(Agreed::refusal)
}
