//! The sending end of MEMX-UDP: messages in order, heartbeats and the shutdown, as packets that are written.

use super::{agreed, laid, Heard, Sender};
use crate::both::{blank, both};
use crate::cases::memx_laid;
use crate::dice::Dice;
use crate::limits::MEMX;
use hinurapay::flat::{hp_packet, hp_record};

const SESSION: u64 = 0x0123_4567_89ab_cdef;

/// How long messages are, up to the longest that a publisher has.
const LENGTHS: [usize; 10] = [0, 1, 12, 12, 60, 600, 1470, 1471, 4000, 8950];

/// A MEMX-UDP publisher and all that it has published. Its headers have `EXTRA` bytes past their own
/// fields, as those of a later edition may, its messages `LONGEST` bytes at most, and its datagrams
/// `MOST` messages at most.
pub struct Memx<const EXTRA: usize, const LONGEST: usize, const MOST: usize> {
    messages: u64,
    /// The blocks of every message.
    log: Vec<u8>,
    /// Where each message's block begins, and where the last one ends.
    places: Vec<usize>,
}

impl<const EXTRA: usize, const LONGEST: usize, const MOST: usize> Memx<EXTRA, LONGEST, MOST> {
    /// What stands in a header past its own fields: what could be counts, and blocks of one byte.
    const HEADER: [u8; EXTRA] = {
        let mut bytes = [0; EXTRA];
        let mut place = 1;
        while place < EXTRA {
            bytes[place] = 1;
            place += 2;
        }
        bytes
    };

    fn published(&self) -> u64 {
        self.places.len() as u64 - 1
    }

    fn packet(&self, r#type: u8, number: u64, count: u64, body: &[u8]) -> Vec<u8> {
        let fields = hp_packet {
            r#type,
            number,
            count: count as u16,
            session: SESSION,
            ..hp_packet::default()
        };
        laid(memx_laid(fields, &Self::HEADER, body, blank(MEMX)))
    }

    /// Whether what is published after so many messages, up to that place, fits one datagram.
    fn fits(&self, before: u64, end: usize) -> bool {
        end - self.places[before as usize] <= MEMX - 20 - EXTRA
    }

    /// Messages from that number on: so many, or as many as were published, or as one datagram has.
    fn data(&self, first: u64, count: u64) -> Vec<u8> {
        let before = first - 1;
        let last = (before + count.min(MOST as u64)).min(self.published());
        let fits = |last: &u64| self.fits(before, self.places[*last as usize]);
        let last = (first..=last).rev().find(fits).expect("each one fits");
        let blocks = &self.log[self.places[before as usize]..self.places[last as usize]];
        self.packet(2, first, last - before, blocks)
    }
}

impl<const EXTRA: usize, const LONGEST: usize, const MOST: usize> Sender
    for Memx<EXTRA, LONGEST, MOST>
{
    fn new(messages: usize) -> Self {
        Memx {
            messages: messages as u64,
            log: Vec::new(),
            places: vec![0],
        }
    }

    fn open() -> hp_record {
        agreed(both!(hp_open_memx(SESSION))).answer.record
    }

    fn read(datagram: &[u8]) -> Heard {
        let read = agreed(both!(hp_memx_read(bytes); lent bytes = datagram));
        let packet = read.answer.packet;
        assert_eq!(usize::from(packet.extra), EXTRA);
        assert_eq!(datagram[18..18 + EXTRA], Self::HEADER);
        let top = match packet.r#type {
            2 => packet.number + u64::from(packet.count) - 1,
            _ => packet.number,
        };
        Heard::of(datagram, &packet, top)
    }

    fn send(&mut self, dice: &mut Dice) -> Vec<u8> {
        let published = self.published();
        if published < self.messages && !dice.one_in(5) {
            let most = (self.messages - published).min(1 + dice.below(MOST) as u64);
            let longest = LENGTHS.partition_point(|&length| length < LONGEST);
            for count in 0..most {
                let length = dice.pick(&LENGTHS[..=longest]).min(LONGEST);
                if count > 0 && !self.fits(published, self.log.len() + 2 + length) {
                    break;
                }
                self.log.extend((length as u16).to_be_bytes());
                self.log.extend(dice.bytes(length));
                self.places.push(self.log.len());
            }
            return self.data(published + 1, most);
        }
        let over = published == self.messages && dice.one_in(2);
        self.packet(u8::from(over), published, 0, &[])
    }

    // MEMX-UDP has no requests; what is missing is asked for apart from it, and comes again as data
    fn request(first: u64, count: u64) -> Vec<u8> {
        [first.to_be_bytes(), count.to_be_bytes()].concat()
    }

    fn answer(&mut self, request: &[u8]) -> Vec<Vec<u8>> {
        let number = |half: &[u8]| u64::from_be_bytes(half.try_into().expect("eight bytes"));
        let (first, count) = request.split_at(8);
        vec![self.data(number(first), number(count))]
    }

    fn log(&self) -> &[u8] {
        &self.log
    }
}
