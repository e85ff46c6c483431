//! Whole sessions over a lossy line, byte for byte, through both desks at once.

mod line;
mod memx;
mod recorder;
mod ufo;

pub use memx::Memx;
pub use ufo::Ufo;

use crate::both::{Agreed, Answer, Difference};
use crate::dice::Dice;
use hinurapay::flat::{hp_packet, hp_record, hp_wrote};
use hinurapay::Blocks;
use line::Line;
use recorder::Recorder;
use std::thread;

/// What a datagram tells.
pub struct Heard {
    /// The number of its first message.
    first: u64,
    /// How long its messages are.
    lengths: Vec<usize>,
    /// The highest number that it tells of.
    top: u64,
}

impl Heard {
    /// What a datagram tells that was read as this packet, and of this number as the highest.
    fn of(datagram: &[u8], packet: &hp_packet, top: u64) -> Heard {
        let blocks = &datagram[packet.start as usize..][..packet.length as usize];
        let lengths = Blocks::over(blocks).map(|block| block.expect("a whole block").len());
        Heard {
            first: packet.number,
            lengths: lengths.collect(),
            top,
        }
    }
}

/// The sending end of a session.
pub trait Sender {
    /// A sender that will have so many messages.
    fn new(messages: usize) -> Self;
    /// A fresh record of its session.
    fn open() -> hp_record;
    /// Reads one of its datagrams, which no reader may refuse.
    fn read(datagram: &[u8]) -> Heard;
    /// One more datagram: the next messages, the end, or a heartbeat.
    fn send(&mut self, dice: &mut Dice) -> Vec<u8>;
    /// A request for so many messages from that number on, as it goes over the line.
    fn request(first: u64, count: u64) -> Vec<u8>;
    /// The datagrams that answer it.
    fn answer(&mut self, request: &[u8]) -> Vec<Vec<u8>>;
    /// The blocks of every message so far.
    fn log(&self) -> &[u8];
}

/// How a session goes.
#[derive(Clone, Copy)]
pub struct Terms {
    /// How many messages there are.
    pub messages: usize,
    /// The lines lose one datagram in so many; 0 for none.
    pub loss: usize,
    /// The line down delays some by so many others at most; 0 for none.
    pub delay: usize,
    /// After how many rounds it is broken off.
    pub rounds: usize,
}

/// What a session came to.
pub struct Outcome {
    /// How many datagrams the recorder took.
    pub taken: u64,
    /// How many requests it made.
    pub requests: u64,
    /// How many messages it held, and how many at most at one time.
    pub held: (u64, u64),
    /// How many messages came early and were too long to be held.
    pub too_long: u64,
    /// How many ranges were missing at most at one time.
    pub ranges: usize,
    /// How many numbers at most were published and not delivered.
    pub behind: u64,
    /// Whether the record is complete.
    pub complete: bool,
    /// The blocks that were delivered.
    pub tape: Vec<u8>,
    /// The blocks of every message that was sent.
    pub log: Vec<u8>,
}

/// Plays a session on these terms, until the record is complete or the rounds are over. Panics if the
/// two desks differ in any answer, record or byte, if either end refuses what it should take, if
/// anything but the log's beginning is delivered, or if the record, at the end and now and then before,
/// holds anything but what must be held, or lacks anything but what it tells.
pub fn play<S: Sender>(seed: u64, terms: Terms) -> Outcome {
    let _telling = Telling(seed);
    let mut dice = Dice::seeded(seed, terms.messages as u64, terms.loss as u64);
    let mut down = Line::new(terms.loss, terms.delay);
    let mut up = Line::new(terms.loss, 0);
    let mut sender = S::new(terms.messages);
    let mut recorder = Recorder::opened(S::open());
    for round in 0..terms.rounds {
        down.send(sender.send(&mut dice), &mut dice);
        while let Some(request) = up.receive(&mut dice) {
            for datagram in sender.answer(&request) {
                down.send(datagram, &mut dice);
            }
        }
        while let Some(datagram) = down.receive(&mut dice) {
            recorder.take(&datagram, &S::read(&datagram));
            let due = sender.log().get(..recorder.tape.len());
            assert_eq!(due, Some(&recorder.tape[..]), "what is delivered was sent");
        }
        if round % 10 == 0 {
            recorder.check(sender.log());
        }
        if recorder.complete() {
            break;
        }
        if let Some((first, count)) = recorder.ask() {
            up.send(S::request(first, count), &mut dice);
        }
    }
    recorder.check(sender.log());
    Outcome {
        taken: recorder.taken,
        requests: recorder.requests,
        held: recorder.held,
        too_long: recorder.too_long,
        ranges: recorder.ranges,
        behind: recorder.behind,
        complete: recorder.complete(),
        tape: recorder.tape,
        log: sender.log().to_vec(),
    }
}

/// Tells the session's seed where something in it panics.
struct Telling(u64);

impl Drop for Telling {
    fn drop(&mut self) {
        if thread::panicking() {
            eprintln!("in the session of seed {}", self.0);
        }
    }
}

/// What both desks agree on, which is no refusal; panics if they differ.
fn agreed<A: Answer>(both: Result<Agreed<A>, Difference>) -> Agreed<A> {
    let agreed = both.unwrap_or_else(|difference| panic!("{}", difference.how));
    assert_eq!(agreed.answer.refusal(), 0);
    agreed
}

/// The packet that both desks wrote.
fn laid(both: Result<Agreed<hp_wrote>, Difference>) -> Vec<u8> {
    let Agreed { answer, out, .. } = agreed(both);
    written(out, answer.bytes)
}

/// The bytes that were written, the rest of the output being as it was.
fn written(mut out: Vec<u8>, bytes: u64) -> Vec<u8> {
    let bytes = bytes as usize;
    assert_eq!(out[bytes..], crate::both::blank(out.len())[bytes..]);
    out.truncate(bytes);
    out
}
