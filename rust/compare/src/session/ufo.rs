//! The sending end of UFO: a log, and the packets out of it.

use super::{agreed, laid, Heard, Sender};
use crate::both::{blank, both};
use crate::dice::Dice;
use crate::limits::UFO;
use hinurapay::flat::{hp_log, hp_packet, hp_record};

/// A UFO server with its log.
pub struct Ufo {
    messages: u64,
    log: hp_log,
    bytes: Vec<u8>,
}

impl Ufo {
    fn add(&mut self, message: &[u8]) {
        let log = self.log;
        self.bytes.extend(blank(2 + message.len()));
        let before = self.bytes.clone();
        let added =
            agreed(both!(hp_log_add(log, tape, lent); lent lent = message; room tape = before));
        let (bytes, logged) = (added.out, added.answer.log);
        let (used, after) = (log.used as usize, logged.used as usize);
        assert_eq!(bytes[..used], self.bytes[..used]);
        assert_eq!(bytes[after..], self.bytes[after..]);
        (self.log, self.bytes) = (logged, bytes);
    }

    fn declare_end(&mut self) {
        let log = self.log;
        let ended = both!(hp_log_declare_end(log, tape); lent tape = &self.bytes);
        self.log = agreed(ended).answer.log;
    }

    fn slip(&self, first: u32, count: u16) -> Vec<u8> {
        let log = self.log;
        laid(both!(
            hp_log_answer(log, tape, first, count, out); lent tape = &self.bytes; room out = blank(UFO)
        ))
    }

    fn heartbeat(&self) -> Vec<u8> {
        let log = self.log;
        laid(both!(
            hp_log_heartbeat(log, tape, out); lent tape = &self.bytes; room out = blank(20)
        ))
    }

    fn end(&self) -> Vec<u8> {
        let log = self.log;
        laid(both!(
            hp_log_end_packet(log, tape, out); lent tape = &self.bytes; room out = blank(20)
        ))
    }
}

impl Sender for Ufo {
    fn new(messages: usize) -> Ufo {
        Ufo {
            messages: messages as u64,
            log: hp_log::default(),
            bytes: blank(3),
        }
    }

    fn open() -> hp_record {
        agreed(both!(hp_open_ufo(b"8841      "))).answer.record
    }

    fn read(datagram: &[u8]) -> Heard {
        let read = agreed(both!(hp_ufo_read_down(bytes); lent bytes = datagram));
        let packet = read.answer.packet;
        let top = match packet.r#type {
            b'E' => packet.number,
            // of a heartbeat one less than the next
            _ => packet.number + u64::from(packet.count) - 1,
        };
        Heard::of(datagram, &packet, top)
    }

    fn send(&mut self, dice: &mut Dice) -> Vec<u8> {
        if self.log.count < self.messages {
            let length = dice.pick(&[0, 1, 12, 12, 60, 700]);
            self.add(&dice.bytes(length));
            return self.slip(self.log.count as u32, 1);
        }
        if self.log.ended == 0 {
            self.declare_end();
            return self.end();
        }
        if dice.one_in(2) {
            self.end()
        } else {
            self.heartbeat()
        }
    }

    fn request(first: u64, count: u64) -> Vec<u8> {
        let fields = hp_packet {
            r#type: b'T',
            number: first,
            count: count as u16,
            ..hp_packet::default()
        };
        laid(both!(
            hp_ufo_write_message(fields, body, out); lent body = &[]; room out = blank(20)
        ))
    }

    fn answer(&mut self, request: &[u8]) -> Vec<Vec<u8>> {
        let whole = agreed(both!(hp_ufo_read_up(bytes); lent bytes = request));
        let (mut place, mut answers) = (0, Vec::new());
        for _ in 0..whole.answer.packet.count {
            let read = both!(hp_ufo_read_message(bytes, place); lent bytes = request);
            let asked = agreed(read).answer.packet;
            assert_eq!(asked.r#type, b'T');
            answers.push(self.slip(asked.number as u32, asked.count));
            place = asked.next;
        }
        answers
    }

    fn log(&self) -> &[u8] {
        &self.bytes[..self.log.used as usize]
    }
}
