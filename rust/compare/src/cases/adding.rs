//! The cases of composing: a message is added behind a packet from the client.

use super::room;
use crate::both::{both, Agreed, Difference};
use crate::dice::Dice;
use crate::limits::UFO;
use crate::make;
use crate::twin::Twin;
use hinurapay::flat::hp_packet;
use ordinary::flat as plain;

/// A case of adding: a message, and output that begins with a packet.
pub struct ToAdd {
    /// The message's fields.
    pub fields: hp_packet,
    /// Its data.
    pub body: Vec<u8>,
    /// The output.
    pub out: Vec<u8>,
    /// How many bytes of it are said to be the packet.
    pub used: u64,
}

impl ToAdd {
    /// Makes a case.
    pub fn made(dice: &mut Dice) -> ToAdd {
        let (fields, body) = make::ufo_message_to_write(dice);
        let packet = make::ufo_begun(body.len(), UFO, dice);
        let mut ample = [&packet[..], &[0; UFO]].concat();
        let used = packet.len() as u64;
        let needed = plain::hp_ufo_add_message(fields.twin(), &body, &mut ample, used).bytes;
        let mut out = room(needed.max(used), dice);
        let there = packet.len().min(out.len());
        out[..there].copy_from_slice(&packet[..there]);
        let used = match dice.below(16) {
            0 => make::number(dice),
            1 => make::near(used, dice),
            2 => make::near(out.len() as u64, dice),
            _ => used,
        };
        ToAdd {
            fields,
            body,
            out,
            used,
        }
    }
}

pub fn add_message(dice: &mut Dice) -> Result<u64, Difference> {
    let ToAdd {
        fields,
        body,
        out,
        used,
    } = ToAdd::made(dice);
    both!(hp_ufo_add_message(fields, body, out, used); lent body = &body; room out = out)
        .map(Agreed::refusal)
}
