//! A Soup stream that is fed piece by piece, and the paper's own way: a machine that eats one byte.

use super::UNTOUCHED;
use ordinary::kinds::Sequence;
use ordinary::soup::{read, Packet};
use ordinary::soup_pieces::{Handed, Pieces, BUFFER};

/// What was handed out: a packet and its number, 0 where it has none, or why it was refused.
#[derive(Clone, Debug, PartialEq, Eq)]
pub struct Out {
    pub bytes: Vec<u8>,
    pub packet: Result<u64, u8>,
}

/// A packet that is taken, with its number, 0 where it has none.
pub fn taken(bytes: &[u8], number: u64) -> Out {
    Out {
        bytes: bytes.to_vec(),
        packet: Ok(number),
    }
}

/// A packet that is refused, and why.
pub fn refused(bytes: &[u8], why: u8) -> Out {
    Out {
        bytes: bytes.to_vec(),
        packet: Err(why),
    }
}

impl From<Handed<'_>> for Out {
    fn from(handed: Handed<'_>) -> Out {
        // what is handed out is what Soup's reader says of its bytes
        match handed.packet {
            Ok(packet) => assert_eq!(read(handed.bytes), Ok(packet)),
            Err(_) => assert_eq!(handed.number, None),
        }
        Out {
            bytes: handed.bytes.to_vec(),
            packet: match handed.packet {
                Ok(_) => Ok(handed.number.unwrap_or_default().0),
                Err(refusal) => Err(refusal.number()),
            },
        }
    }
}

/// A stream and the buffer that it was always lent.
pub struct Stream {
    pub pieces: Pieces,
    pub buffer: Vec<u8>,
}

impl Stream {
    /// A stream of which nothing came yet.
    pub fn begun() -> Stream {
        Stream::from(0)
    }

    /// A stream whose next `S` has this number.
    pub fn from(next: u64) -> Stream {
        let next = Sequence(next);
        Stream {
            pieces: Pieces {
                next,
                ..Pieces::default()
            },
            buffer: vec![UNTOUCHED; BUFFER],
        }
    }

    /// Feeds a piece up to the first packet that ends, or to its end.
    pub fn take(&mut self, piece: &mut &[u8]) -> Option<Out> {
        let handed = self.pieces.take(&mut self.buffer, piece).unwrap();
        handed.map(Out::from)
    }

    /// Feeds a piece to its end; what it hands out. Behind what is handed out or kept the buffer must
    /// be as before, after each call.
    pub fn feed(&mut self, mut piece: &[u8]) -> Vec<Out> {
        let mut outs = Vec::new();
        loop {
            let before = self.buffer.clone();
            let out = self.take(&mut piece);
            let start = out.as_ref().map_or(self.kept(), |out| &out.bytes);
            assert_eq!(self.buffer[..start.len()], *start);
            assert!(self.buffer[start.len()..] == before[start.len()..]);
            match out {
                Some(out) => outs.push(out),
                None => break,
            }
        }
        assert!(piece.is_empty(), "all of it is used up");
        outs
    }

    /// Feeds the bytes, cut where told, and looks at nothing but what is handed out.
    pub fn feed_cut(&mut self, bytes: &[u8], cuts: &[usize]) -> Vec<Out> {
        let mut outs = Vec::new();
        let mut from = 0;
        for to in cuts.iter().copied().chain([bytes.len()]) {
            let mut piece = &bytes[from..to];
            while let Some(out) = self.take(&mut piece) {
                outs.push(out);
            }
            from = to;
        }
        outs
    }

    /// What is kept of an unfinished packet.
    pub fn kept(&self) -> &[u8] {
        &self.buffer[..self.pieces.kept]
    }

    /// All that counts as state.
    pub fn state(&self) -> (&[u8], bool, u64) {
        (self.kept(), self.pieces.dropping, self.pieces.next.0)
    }
}

/// What the paper says happens at each byte.
#[derive(Default)]
pub struct Machine {
    kept: Vec<u8>,
    dropping: bool,
    next: u64,
}

impl Machine {
    /// A machine that stands where a stream does.
    pub fn at(stream: &Stream) -> Machine {
        Machine {
            kept: stream.kept().to_vec(),
            dropping: stream.pieces.dropping,
            next: stream.pieces.next.0,
        }
    }

    /// Eats bytes; what they hand out.
    pub fn feed(&mut self, bytes: &[u8]) -> Vec<Out> {
        bytes.iter().filter_map(|&byte| self.eat(byte)).collect()
    }

    /// All that counts as state.
    pub fn state(&self) -> (&[u8], bool, u64) {
        (&self.kept, self.dropping, self.next)
    }

    fn eat(&mut self, byte: u8) -> Option<Out> {
        if self.dropping {
            self.dropping = byte != b'\n';
            return None;
        }
        self.kept.push(byte);
        if byte != b'\n' && self.kept.len() < 4098 {
            return None;
        }
        let bytes = std::mem::take(&mut self.kept);
        let packet = if byte == b'\n' {
            self.judge(&bytes)
        } else {
            self.dropping = true;
            Err(2)
        };
        Some(Out { bytes, packet })
    }

    /// The number of a packet, 0 where it has none, or why it is refused.
    fn judge(&mut self, packet: &[u8]) -> Result<u64, u8> {
        let packet = read(packet).map_err(|refusal| refusal.number())?;
        let number = self.next;
        match packet {
            Packet::Sequenced(_) if number == 0 => return Err(16),
            Packet::Sequenced(_) if number == u64::MAX => return Err(7),
            Packet::Accepted { .. } if number != 0 => return Err(16),
            Packet::Sequenced(_) => self.next = number + 1,
            Packet::Accepted { next, .. } => self.next = next.0,
            _ => {}
        }
        Ok(if matches!(packet, Packet::Sequenced(_)) {
            number
        } else {
            0
        })
    }
}
