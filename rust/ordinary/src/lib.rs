//! The recording desk of documents 01 and 02 in ordinary Rust, written from the papers alone.
//!
//! It stands beside the proved desk and shares nothing with it, so that the two can be held
//! against each other case by case. [`flat`] has the shape of the C face; the other modules are
//! what a Rust program would call.
//!
//! ```
//! use ordinary::held::AREA;
//! use ordinary::kinds::Name;
//! use ordinary::record::Record;
//!
//! let mut record = Record::open_ufo(Name(*b"8841      "))?;
//! let (mut area, mut tape) = (vec![0; AREA], [0; 16]);
//! // message 2 comes before message 1, and is held until that is there
//! record.take_in_place(&mut area, b"S\0\0\0\x02\0\x01\0\x01!", &mut tape)?;
//! let delivered = record.take_in_place(&mut area, b"S\0\0\0\x01\0\x01\0\x02HI", &mut tape)?;
//! assert_eq!(&tape[..delivered.bytes], b"\0\x02HI\0\x01!");
//! assert_eq!(record.next.0, 3);
//! # Ok::<(), ordinary::refusal::Refusal>(())
//! ```
//!
//! # Where the paper is silent
//!
//! - Reading one upstream message at a place: the whole packet is read first, as it is read without
//!   a place; then a place inside a block, whatever seems to stand there, is 4.
//! - A block's `start` is where its data begin, past the two length bytes.
//! - A heartbeat `S`, and any packet whose payload is empty, still says where its blocks or its
//!   payload would begin; the length is 0.
//! - A Soup packet that was read and is written again differs at most in its number, which has spaces
//!   for the noughts before it; of nothing but noughts the last one stays.
//! - Writing a type that there is not: the packet would be the bytes that every packet of the
//!   protocol has around the body (UFO 1, an upstream block 3, MEMX-UDP 18 and the extra bytes,
//!   MEMX-TCP 3, Soup 2), so it is 2 where those and the body are over the limit, else 3.
//! - Over 237 extra bytes in writing MEMX-UDP are refused where a reader would refuse the header
//!   length: after 2 and 3, before any 4.
//! - A Soup reject whose reason is a linefeed is refused in writing as 8, as in reading.
//! - Soup off the wire: the reader's refusals come before 16 and 7, and 2 before them all; a linefeed
//!   alone is a packet of no known type (3). Packets from the client are handed out like the others, so
//!   is whatever follows a reject or an end of session, and what isn't `S` or `A` may come before
//!   Login Accepted. An `A` may name 2^64-1 as the next number; each `S` behind it is 7. A buffer may
//!   be longer than 4,098 bytes: what stands behind them is not looked at, and stays.
//! - A UFO request has no bound but its bytes.
//! - A MEMX-TCP length that is not how many bytes follow the header is 4.
//! - What is wrong with a record's full slots is 10 wherever a record is given; what is wrong with the
//!   area is 10 only where it is lent, in taking. Both come before the reader's refusals.
//! - An area may be longer than 32 slots: what stands behind them is not looked at, and stays.
//! - A held message is kept though the number comes again with other bytes; where it comes again in
//!   a packet that delivers, the packet's own bytes go out and the slot falls free.
//! - Freed slots keep their bytes.
//! - Minus zero lies between 0 and any bound. The wait of 1000 while nothing was timed is held
//!   between floor and ceiling too.
//! - Asking refuses a rule or an elapsed time out of range (15) even if nothing is missing.
//! - Adding many messages at once: 10, 13, then 4 if their blocks don't end exactly at the end, then
//!   2, 7 and 9 over all of them, and all are added or none; no messages at all are 13 after the end.

#![forbid(unsafe_code)]
#![warn(missing_docs)]

pub mod blocks;
pub mod clock;
mod decimal;
mod fields;
pub mod flat;
pub mod held;
pub mod kinds;
pub mod lend;
pub mod memx;
pub mod memx_tcp;
pub mod missing;
pub mod record;
pub mod refusal;
pub mod soup;
pub mod soup_pieces;
pub mod text;
pub mod ufo;
mod words;
