//! The functions of the C face, and a safe function on slices around each.
//!
//! The only module with `unsafe` in it.

use crate::structs::*;

/// Declares functions as the C face has them, and makes of each a safe one: `lent` bytes come as a
/// slice to be read and `room` as one to be written, both of which C takes as a pointer and a count.
macro_rules! functions {
    ($($(#[$about:meta])* $name:ident($($arguments:tt)*) -> $answer:ty;)*) => {$(
        function! { { $(#[$about])* } $name $answer; [] [] []; $($arguments)*, }
    )*};
}

/// Goes through a function's arguments, and gathers them as Rust has them, as C has them, and as
/// they are handed on.
macro_rules! function {
    ({ $($about:tt)* } $name:ident $answer:ty; [$($safe:tt)*] [$($c:tt)*] [$($on:tt)*]; lent $bytes:ident, $($rest:tt)*) => {
        function! {
            { $($about)* } $name $answer;
            [$($safe)* $bytes: &[u8],] [$($c)* _: *const u8, _: usize,] [$($on)* $bytes.as_ptr(), $bytes.len(),];
            $($rest)*
        }
    };
    ({ $($about:tt)* } $name:ident $answer:ty; [$($safe:tt)*] [$($c:tt)*] [$($on:tt)*]; room $bytes:ident, $($rest:tt)*) => {
        function! {
            { $($about)* } $name $answer;
            [$($safe)* $bytes: &mut [u8],] [$($c)* _: *mut u8, _: usize,] [$($on)* $bytes.as_mut_ptr(), $bytes.len(),];
            $($rest)*
        }
    };
    ({ $($about:tt)* } $name:ident $answer:ty; [$($safe:tt)*] [$($c:tt)*] [$($on:tt)*]; $value:ident: $kind:ty, $($rest:tt)*) => {
        function! {
            { $($about)* } $name $answer;
            [$($safe)* $value: $kind,] [$($c)* _: $kind,] [$($on)* $value,];
            $($rest)*
        }
    };
    ({ $($about:tt)* } $name:ident $answer:ty; [$($safe:tt)*] [$($c:tt)*] [$($on:tt)*];) => {
        $($about)*
        #[inline]
        pub fn $name($($safe)*) -> $answer {
            extern "C" {
                fn $name($($c)*) -> $answer;
            }
            // SAFETY: every pointer is a slice's or an array's own, with its own length; and what is
            // written overlaps nothing else, being borrowed for that alone
            unsafe { $name($($on)*) }
        }
    };
}

functions! {
    /// Reads a Soup packet.
    hp_soup_read(lent packet) -> hp_read;
    /// Reads a UFO packet from the server.
    hp_ufo_read_down(lent packet) -> hp_read;
    /// Reads a whole UFO packet from the client: type 0, and as count its messages.
    hp_ufo_read_up(lent packet) -> hp_read;
    /// Reads the UFO message from the client whose block starts at place; refused as
    /// [`hp_ufo_read_up`] refuses the packet, then 4 where no block starts there.
    hp_ufo_read_message(lent packet, place: u64) -> hp_read;
    /// Reads a MEMX-UDP packet.
    hp_memx_read(lent packet) -> hp_read;
    /// The data block at place; a block that runs past the end, or a place at or past it, is 4.
    hp_next_block(lent bytes, place: u64) -> hp_block;

    /// Writes a Soup packet.
    hp_soup_write(fields: hp_packet, lent body, room out) -> hp_wrote;
    /// Writes a UFO packet from the server.
    hp_ufo_write_down(fields: hp_packet, lent body, room out) -> hp_wrote;
    /// Writes one UFO message from the client as a block; refused as the packet of that one block
    /// would be.
    hp_ufo_write_message(fields: hp_packet, lent body, room out) -> hp_wrote;
    /// Adds one UFO message more behind the packet from the client, or nothing, that the output's
    /// first `used` bytes are, and says how many bytes the whole has. Refused: 4 for `used` past the
    /// output's end; as [`hp_ufo_read_up`] refuses what is there, if it is not empty; as it would
    /// refuse the whole; then 9.
    hp_ufo_add_message(fields: hp_packet, lent body, room out, used: u64) -> hp_wrote;
    /// Writes a MEMX-UDP packet with these extra bytes in its header, whatever the field `extra` says.
    hp_memx_write(fields: hp_packet, lent extra, lent body, room out) -> hp_wrote;

    /// Takes a piece of a Soup stream from a place on, up to the first packet that ends or is refused,
    /// or to the piece's end; the buffer has 4,098 bytes or more. Refused: 10, then 4 for a place past
    /// the piece's end.
    hp_soup_take(pieces: hp_pieces, room buffer, lent piece, place: u64) -> hp_piece;

    /// Reads one whole MEMX-TCP packet, its three-byte header first.
    hp_tcp_read(lent packet) -> hp_tcp_reading;
    /// Writes a MEMX-TCP packet; `body` is the token or the payload.
    hp_tcp_write(fields: hp_tcp, lent body, room out) -> hp_wrote;

    /// Opens a record of a UFO session; its `session` is 0.
    hp_open_ufo(name: &[u8; 10]) -> hp_opened;
    /// Opens a record of a MEMX-UDP session; its `name` is zeros.
    hp_open_memx(session: u64) -> hp_opened;
    /// Takes a datagram, delivers what is next, and holds what is early in the area, which is 32 slots
    /// of 1,472 bytes; a message of over 1,470 is not held. Output of [`ufo::ROOM`](crate::ufo::ROOM)
    /// bytes is never too short in UFO style, of [`memx::ROOM`](crate::memx::ROOM) in MEMX-UDP.
    hp_take(record: hp_record, room area, lent datagram, room out) -> hp_taken;
    /// Whether a record is complete, and what is missing.
    hp_standing_of(record: hp_record) -> hp_standing;
    /// The missing range at that place, counted from 0.
    hp_missing_range(record: hp_record, place: u64) -> hp_range;

    /// Times one more answer.
    hp_time(sheet: hp_sheet, sample: f64) -> hp_timed;
    /// How long to wait before asking again.
    hp_wait_of(sheet: hp_sheet, patience: hp_patience) -> hp_wait;
    /// What to ask now, given how long ago the last request was.
    hp_ask(record: hp_record, sheet: hp_sheet, patience: hp_patience, elapsed: f64) -> hp_asked;
    /// Whether the line is lost.
    hp_line_lost(now: u64, heard: u64) -> hp_yes;
    /// Whether a Soup heartbeat is due.
    hp_heartbeat_due(now: u64, sent: u64) -> hp_yes;

    /// Adds a message to the log.
    hp_log_add(log: hp_log, room bytes, lent message) -> hp_logged;
    /// Adds many messages to the log at once, given as their blocks, all of them or none.
    hp_log_add_many(log: hp_log, room bytes, lent blocks) -> hp_logged;
    /// Declares the log's end.
    hp_log_declare_end(log: hp_log, lent bytes) -> hp_logged;
    /// Answers a request for `count` messages from `first` on.
    hp_log_answer(log: hp_log, lent bytes, first: u32, count: u16, room out) -> hp_wrote;
    /// Writes a heartbeat.
    hp_log_heartbeat(log: hp_log, lent bytes, room out) -> hp_wrote;
    /// Writes the end packet.
    hp_log_end_packet(log: hp_log, lent bytes, room out) -> hp_wrote;
}
