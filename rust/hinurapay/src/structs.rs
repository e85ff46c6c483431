//! The structs of the C face.

/// Structs laid out as in C, equal if every field is, numbers with a point bit for bit.
macro_rules! structs {
    ($($(#[$about:meta])* $name:ident { $($(#[$what:meta])* $field:ident: $kind:ty,)* })*) => {$(
        $(#[$about])*
        #[repr(C)]
        #[derive(Clone, Copy, Debug, Default)]
        pub struct $name {
            $($(#[$what])* pub $field: $kind,)*
        }

        impl PartialEq for $name {
            fn eq(&self, other: &Self) -> bool {
                $(self.$field.same(&other.$field))&&*
            }
        }

        impl Same for $name {
            fn same(&self, other: &Self) -> bool {
                self == other
            }
        }
    )*};
}

/// Sameness bit for bit.
trait Same {
    fn same(&self, other: &Self) -> bool;
}

macro_rules! same_if_equal {
    ($($kind:ty),*) => {$(
        impl Same for $kind {
            fn same(&self, other: &Self) -> bool {
                self == other
            }
        }
    )*};
}

same_if_equal!(u8, u16, u32, u64, [u8; 6], [u8; 10]);

impl Same for f64 {
    fn same(&self, other: &Self) -> bool {
        self.to_bits() == other.to_bits()
    }
}

structs! {
    /// The fields of one packet or message, those that its type lacks being 0.
    hp_packet {
        /// The type byte of the wire.
        r#type: u8,
        /// `J`: `A` or `S`.
        reason: u8,
        /// UFO `S` and `T`, MEMX-UDP 2; of a whole upstream packet, its messages.
        count: u16,
        /// `L`, as the bytes of the wire, padding and all.
        user: [u8; 6],
        /// `L`.
        password: [u8; 10],
        /// The session in Soup and UFO `A` and `L`.
        name: [u8; 10],
        /// MEMX-UDP.
        session: u64,
        /// A sequence number, or the total of UFO `E`.
        number: u64,
        /// Where the blocks (UFO `S`, MEMX-UDP 2) or the payload (Soup `+` `S` `U`, UFO `U`) begin.
        start: u64,
        /// And how many bytes they have.
        length: u64,
        /// [`hp_ufo_read_message`](crate::flat::hp_ufo_read_message): the place of the block after this one; else 0.
        next: u64,
        /// MEMX-UDP: how many header bytes there are past the 18; they stand from 18 on.
        extra: u8,
    }

    /// A packet that was read.
    hp_read {
        /// 0 or why it was refused.
        refusal: u64,
        /// Its fields.
        packet: hp_packet,
    }

    /// Where a block's data stand.
    hp_block {
        /// 0 or why it was refused.
        refusal: u64,
        /// The place of the first byte after the length.
        start: u64,
        /// How many bytes of data there are.
        length: u64,
        /// The place of the block after this one.
        next: u64,
    }

    /// How many bytes were written.
    hp_wrote {
        /// 0 or why it was refused.
        refusal: u64,
        /// How many bytes were written.
        bytes: u64,
    }

    /// How a Soup stream stands between two pieces; all zeros to begin with.
    hp_pieces {
        /// How many bytes of an unfinished packet stand at the buffer's start.
        kept: u64,
        /// 1 while the rest of an overlong packet is dropped, else 0; another is 10.
        dropping: u8,
        /// The number of the next `S`; 0 before Login Accepted.
        next: u64,
    }

    /// What a piece of a Soup stream gave, from a place on.
    hp_piece {
        /// 0 or why the call was refused.
        refusal: u64,
        /// Where to go on in the piece.
        place: u64,
        /// 0 the piece is used up and no packet ended; 1 a packet; 2 a refused packet.
        what: u8,
        /// 2: why it was refused.
        why: u64,
        /// 1, an `S`: the message's number.
        number: u64,
        /// 1, 2: the packet is the buffer's first so many bytes; of an overlong one 4,098.
        bytes: u64,
        /// 1: its fields, as [`hp_soup_read`](crate::flat::hp_soup_read) gives them.
        packet: hp_packet,
        /// The stream afterwards.
        pieces: hp_pieces,
    }

    /// The fields of one MEMX-TCP packet, those that its type lacks being 0.
    hp_tcp {
        /// 0 to 11, 100 to 104.
        r#type: u8,
        /// 1: the mode; 2, 6, 9: the reject code; 100: the token's type.
        letter: u8,
        /// 5: pending; 7: sent; 101: asked for.
        count: u32,
        /// 3, 101, 102, 103.
        session: u64,
        /// 5, 8, 101, 103: the next number; 10: the total.
        number: u64,
        /// 8: the highest number published.
        top: u64,
        /// 100: where the token begins; 11, 104: the payload.
        start: u64,
        /// And how many bytes it has.
        length: u64,
    }

    /// A MEMX-TCP packet that was read.
    hp_tcp_reading {
        /// 0 or why it was refused.
        refusal: u64,
        /// Its fields.
        packet: hp_tcp,
    }

    /// A session record.
    hp_record {
        /// 1 UFO, 2 MEMX-UDP; another is 10.
        style: u8,
        /// 0 or 1; another is 10.
        ended: u8,
        /// UFO: the session's bytes. MEMX-UDP: not looked at, and kept.
        name: [u8; 10],
        /// MEMX-UDP: the session's number. UFO: not looked at, and kept.
        session: u64,
        /// The number of the next message to be delivered.
        next: u64,
        /// The highest number known to be published.
        top: u64,
        /// The number last asked from, 0 if none.
        asked: u64,
        /// Bit i is 1 where slot i of the held area is full.
        held: u32,
    }

    /// A record that was opened; on a refusal a record of zeros.
    hp_opened {
        /// 0 or why it was refused.
        refusal: u64,
        /// The fresh record.
        record: hp_record,
    }

    /// What taking a datagram gave.
    hp_taken {
        /// 0 or why it was refused.
        refusal: u64,
        /// How many bytes were delivered.
        bytes: u64,
        /// How many messages they are.
        messages: u64,
        /// The record afterwards.
        record: hp_record,
    }

    /// How a record stands.
    hp_standing {
        /// 0 or why it was refused.
        refusal: u64,
        /// 1 where the end was heard and every message was delivered.
        complete: u8,
        /// How many ranges are missing.
        missing: u8,
        /// The first number of the first of them, 0 where there is none.
        first: u64,
        /// Its last number, 0 where there is none.
        last: u64,
    }

    /// A missing range.
    hp_range {
        /// 0 or why it was refused.
        refusal: u64,
        /// Its first number, 0 where there is no such range.
        first: u64,
        /// Its last number, 0 where there is no such range.
        last: u64,
    }

    /// What to ask now.
    hp_asked {
        /// 0 or why it was refused.
        refusal: u64,
        /// 0 nothing, 1 wait, 2 request.
        what: u8,
        /// The first number wanted.
        first: u64,
        /// How many are wanted.
        count: u64,
        /// The record afterwards.
        record: hp_record,
    }

    /// What was learnt from timed answers.
    hp_sheet {
        /// The smoothed mean.
        mean: f64,
        /// The smoothed distance from the mean.
        spread: f64,
        /// 0 or 1; another is 10.
        timed: u8,
    }

    /// How patient the desk is.
    hp_patience {
        /// 0 never; 1 fixed (`first`); 2 measured, floor `first`, ceiling `second`; another is 15.
        rule: u8,
        /// The wait, or the floor.
        first: f64,
        /// The ceiling.
        second: f64,
    }

    /// A sheet after one more timed answer.
    hp_timed {
        /// 0 or why it was refused.
        refusal: u64,
        /// The sheet afterwards.
        sheet: hp_sheet,
    }

    /// How long to wait before asking again.
    hp_wait {
        /// 0 or why it was refused.
        refusal: u64,
        /// 0: the rule never asks twice.
        waits: u8,
        /// How long.
        milliseconds: f64,
    }

    /// A yes or a no.
    hp_yes {
        /// 0 or why it was refused.
        refusal: u64,
        /// 1 for yes.
        yes: u8,
    }

    /// A log's own numbers.
    hp_log {
        /// How many messages there are.
        count: u64,
        /// How many of the lent bytes their blocks take up.
        used: u64,
        /// 0 or 1; another is 10.
        ended: u8,
    }

    /// A log after a change.
    hp_logged {
        /// 0 or why it was refused.
        refusal: u64,
        /// The log afterwards.
        log: hp_log,
    }
}
