//! The cases of the session record's functions.

use super::room;
use crate::both::{blank, both, copied, Agreed, Difference};
use crate::dice::Dice;
use crate::limits::{AREA, MEMX, MEMX_ROOM, UFO_ROOM};
use crate::make;
use crate::twin::Twin;
use hinurapay::flat::{hp_record, hp_taken};
use ordinary::flat as plain;
use std::cell::RefCell;

/// A name where it is lent; while a smaller case is looked for there may be less than one.
fn name(lent: &[u8]) -> &[u8; 10] {
    lent.first_chunk().unwrap_or(&[0; 10])
}

pub fn open_ufo(dice: &mut Dice) -> Result<u64, Difference> {
    let text = make::text::<10>(false, dice);
    both!(hp_open_ufo(name(bytes)); lent bytes = &text).map(Agreed::refusal)
}

pub fn open_memx(dice: &mut Dice) -> Result<u64, Difference> {
    let session = make::number(dice);
    both!(hp_open_memx(session)).map(Agreed::refusal)
}

/// A case of taking: a record, its area, a datagram, and output of which mostly there is enough.
pub struct ToTake {
    /// The record.
    pub record: hp_record,
    /// Its area.
    pub area: Vec<u8>,
    /// The datagram.
    pub datagram: Vec<u8>,
    /// The output.
    pub out: Vec<u8>,
}

impl ToTake {
    /// Makes a case.
    pub fn made(dice: &mut Dice) -> ToTake {
        let (record, area, datagram) = make::to_take(dice);
        let mut case = ToTake {
            record,
            area,
            datagram,
            out: Vec::new(),
        };
        case.out = room_to_take(case.with_room().bytes, dice);
        case
    }

    /// What the ordinary desk answers where there is room enough.
    pub fn with_room(&self) -> plain::hp_taken {
        thread_local! {
            // more than a packet and all that can be held
            static AMPLE: RefCell<Vec<u8>> = RefCell::new(vec![0; MEMX + AREA]);
        }
        let mut area = copied(&[&self.area]);
        AMPLE.with_borrow_mut(|out| {
            plain::hp_take(self.record.twin(), &mut area, &self.datagram, out)
        })
    }
}

/// Room for what is due: mostly as for any output, but where that is much a byte too little, just
/// enough, or as much as is never too little for UFO or for MEMX-UDP.
fn room_to_take(due: u64, dice: &mut Dice) -> Vec<u8> {
    let bytes = due as usize;
    if bytes > AREA / 2 || dice.one_in(32) {
        let less = bytes.saturating_sub(1);
        blank(dice.pick(&[less, bytes, UFO_ROOM, MEMX_ROOM]))
    } else {
        room(due, dice)
    }
}

pub fn take(dice: &mut Dice) -> Result<u64, Difference> {
    let case = ToTake::made(dice);
    taken(case.record, &case.area, &case.datagram, case.out).map(Agreed::refusal)
}

/// Takes a datagram by both desks, which are lent the same area and the same output.
pub fn taken(
    record: hp_record,
    area: &[u8],
    datagram: &[u8],
    out: Vec<u8>,
) -> Result<Agreed<hp_taken>, Difference> {
    both!(
        hp_take(record, area, bytes, out);
        lent bytes = datagram; area area = area; room out = out
    )
}

pub fn standing_of(dice: &mut Dice) -> Result<u64, Difference> {
    let record = make::record(dice);
    both!(hp_standing_of(record)).map(Agreed::refusal)
}

pub fn missing_range(dice: &mut Dice) -> Result<u64, Difference> {
    let (record, place) = make::to_look_up(dice);
    both!(hp_missing_range(record, place)).map(Agreed::refusal)
}

pub fn ask(dice: &mut Dice) -> Result<u64, Difference> {
    let record = make::record(dice);
    let (sheet, patience) = (make::sheet(dice), make::patience(dice));
    let elapsed = match dice.below(4) {
        0 => make::time(86_400_000.0, dice),
        1 => patience.first,
        2 => sheet.mean + 4.0 * sheet.spread,
        _ => make::time(3000.0, dice),
    };
    both!(hp_ask(record, sheet, patience, elapsed)).map(Agreed::refusal)
}
