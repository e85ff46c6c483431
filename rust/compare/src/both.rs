//! One case given to both desks.

use crate::limits::SLOT;
use crate::smallest::smallest;
use crate::twin::Twin;
use hinurapay::flat::*;
use std::fmt::Debug;
use std::hint::black_box;

/// Bytes after everything that is lent to the proved desk, which it must neither read nor change.
const GUARD: [u8; 16] = [0xa5; 16];

/// An answer of the proved desk.
pub trait Answer: PartialEq + Debug {
    /// 0 or why it was refused.
    fn refusal(&self) -> u64;
}

macro_rules! answers {
    ($($name:ident)*) => {$(
        impl Answer for $name {
            fn refusal(&self) -> u64 {
                self.refusal
            }
        }
    )*};
}

answers! {
    hp_read hp_wrote hp_block hp_piece hp_tcp_reading hp_opened hp_taken hp_standing hp_range hp_timed
    hp_wait hp_asked hp_yes hp_logged
}

/// What both desks answered, and area and output as both left them.
pub struct Agreed<A> {
    /// The answer.
    pub answer: A,
    /// All of the area.
    pub area: Vec<u8>,
    /// All of the output.
    pub out: Vec<u8>,
}

impl<A: Answer> Agreed<A> {
    /// 0 or why both refused.
    pub fn refusal(self) -> u64 {
        self.answer.refusal()
    }
}

impl Agreed<hp_read> {
    /// Holds what both read against what they read before, of the same packet spelt otherwise.
    pub fn same_as(self, before: &hp_read, packet: &[u8]) -> Result<(), Difference> {
        if self.answer == *before {
            return Ok(());
        }
        Err(Difference {
            size: packet.len(),
            how: format!(
                "packet: {}\nas it is:     {before:?}\nits spelling: {:?}",
                hex(packet),
                self.answer
            ),
        })
    }
}

impl Agreed<hp_wrote> {
    /// Holds what both wrote against what was to be written.
    pub fn held_against(self, packet: &[u8]) -> Result<(), Difference> {
        let Agreed { answer, out, .. } = self;
        if answer.refusal == 0 && out[..answer.bytes as usize] == *packet {
            return Ok(());
        }
        Err(Difference {
            size: packet.len(),
            how: format!(
                "due:     {}\nwritten: {}\nanswer: {answer:?}",
                hex(packet),
                hex(&out)
            ),
        })
    }
}

/// How the two desks differ.
pub struct Difference {
    /// How many bytes the case has.
    pub size: usize,
    /// The case, and what each made of it.
    pub how: String,
}

impl Difference {
    /// The same, with a line more before the case.
    pub fn behind(self, line: &str) -> Difference {
        Difference {
            how: format!("{line}\n{}", self.how),
            ..self
        }
    }
}

/// Copies bytes, piece by piece: an emulator takes five times as long for a long copy in one.
pub fn copied(parts: &[&[u8]]) -> Vec<u8> {
    let mut copy = Vec::with_capacity(parts.iter().map(|part| part.len()).sum());
    for piece in parts.iter().flat_map(|part| part.chunks(SLOT)) {
        copy.extend_from_slice(piece);
    }
    copy
}

/// So many bytes of output that was not written to yet.
pub fn blank(room: usize) -> Vec<u8> {
    (0..room).map(|place| (place * 7 + 13) as u8).collect()
}

/// Calls one function on both desks:
/// `both!(hp_name(arguments); lent name = bytes; area name = area; room name = output)`, where the
/// arguments speak of bytes, area and output by those names, and may do without any of them.
macro_rules! both {
    ($function:ident($($argument:expr),*)) => {
        both!($function($($argument),*); lent _lent = &[])
    };
    ($function:ident($($argument:expr),*); lent $lent:ident = $bytes:expr) => {
        both!($function($($argument),*); lent $lent = $bytes; room _room = Vec::new())
    };
    ($function:ident($($argument:expr),*); lent $lent:ident = $bytes:expr; room $room:ident = $out:expr) => {
        both!($function($($argument),*); lent $lent = $bytes; area _area = &[]; room $room = $out)
    };
    ($function:ident($($argument:expr),*); lent $lent:ident = $bytes:expr; area $area:ident = $held:expr; room $room:ident = $out:expr) => {
        $crate::both::give(
            $bytes,
            $held,
            $out,
            |$lent, $area, $room| hinurapay::flat::$function($($argument),*),
            |$lent, $area, $room| ordinary::flat::$function($($crate::twin::Twin::twin($argument)),*),
            |$lent, $area, $room| format!("{:?}", ($($argument,)*)),
        )
    };
}
pub(crate) use both;

/// Lends the same bytes, and area and output that start equal, to both desks; what they agree on, or
/// how they differ, on the smallest of such cases. All of area and output is compared, and the lent
/// bytes must be as they were. `inputs` tells all of the inputs, as far as they are not lent.
pub fn give<A: Answer, B: Twin<Other = A>>(
    lent: &[u8],
    area: &[u8],
    out: Vec<u8>,
    proved: impl Fn(&[u8], &mut [u8], &mut [u8]) -> A,
    plain: impl Fn(&[u8], &mut [u8], &mut [u8]) -> B,
    inputs: impl Fn(&[u8], &mut [u8], &mut [u8]) -> String,
) -> Result<Agreed<A>, Difference> {
    let once = |lent: &[u8], out: &[u8]| held(lent, area, out, &proved, &plain);
    let how = match once(lent, &out) {
        Ok(agreed) => return Ok(agreed),
        Err(how) => how,
    };
    let differ = |lent: &[u8], out: &[u8]| once(lent, out).is_err();
    let (lent, out) = smallest(lent, &out, differ);
    let how = once(&lent, &out).err().unwrap_or(how);
    Err(Difference {
        size: lent.len() + out.len(),
        how: format!(
            "lent bytes ({}): {}\narea before ({} bytes): {}\noutput before ({} bytes): {}\n\
             inputs, without what is lent: {}\n{how}",
            lent.len(),
            hex(&lent),
            area.len(),
            hex(area),
            out.len(),
            hex(&out),
            inputs(&[], &mut [], &mut []),
        ),
    })
}

/// Gives a case to both desks once.
fn held<A: Answer, B: Twin<Other = A>>(
    lent: &[u8],
    area: &[u8],
    out: &[u8],
    proved: impl Fn(&[u8], &mut [u8], &mut [u8]) -> A,
    plain: impl Fn(&[u8], &mut [u8], &mut [u8]) -> B,
) -> Result<Agreed<A>, String> {
    let before = [lent, &GUARD].concat();
    let copy = before.clone();
    let (mut one, mut other) = (Left::before(area, out), Left::before(area, out));
    let (its_area, its_out) = one.lent();
    let answer = proved(&copy[..lent.len()], its_area, its_out);
    let (its_area, its_out) = other.lent();
    let expected = plain(lent, its_area, its_out).twin();
    let untouched = *black_box(&copy) == before;
    if answer == expected && one == other && untouched {
        other.area.truncate(area.len());
        other.out.truncate(out.len());
        let Left { area, out } = other;
        return Ok(Agreed { answer, area, out });
    }
    Err(format!(
        "proved:   {answer:?}\nordinary: {expected:?}\n\
         area, proved:   {}\narea, ordinary: {}\n\
         output, proved:   {}\noutput, ordinary: {}\nlent bytes untouched: {untouched}",
        hex(&one.area),
        hex(&other.area),
        hex(&one.out),
        hex(&other.out),
    ))
}

/// Area and output as a desk left them, each with its guard.
#[derive(PartialEq)]
struct Left {
    area: Vec<u8>,
    out: Vec<u8>,
}

impl Left {
    /// Both as they are before a call.
    fn before(area: &[u8], out: &[u8]) -> Left {
        Left {
            area: copied(&[area, &GUARD]),
            out: copied(&[out, &GUARD]),
        }
    }

    /// Both as they are lent, without the guards.
    fn lent(&mut self) -> (&mut [u8], &mut [u8]) {
        let area = self.area.len() - GUARD.len();
        let out = self.out.len() - GUARD.len();
        (&mut self.area[..area], &mut self.out[..out])
    }
}

/// The bytes in hexadecimal; a long run of one byte is told by how many they are.
fn hex(bytes: &[u8]) -> String {
    let mut told = String::new();
    for run in bytes.chunk_by(|one, next| one == next) {
        let byte = format!("{:02x}", run[0]);
        told += &match run.len() {
            1..=16 => byte.repeat(run.len()),
            many => format!("({byte} {many} times)"),
        };
    }
    told
}

#[cfg(test)]
mod tests {
    use super::*;

    fn agreed<A>(answer: A, out: &[u8]) -> Agreed<A> {
        Agreed {
            answer,
            area: Vec::new(),
            out: out.to_vec(),
        }
    }

    #[test]
    fn what_is_read_otherwise_is_a_difference() {
        let read = |number| {
            let packet = hp_packet {
                number,
                ..hp_packet::default()
            };
            hp_read { refusal: 0, packet }
        };
        assert!(agreed(read(42), b"").same_as(&read(42), b"").is_ok());
        assert!(agreed(read(42), b"").same_as(&read(0), b"").is_err());
    }

    #[test]
    fn what_is_written_otherwise_is_a_difference() {
        let held = |refusal, bytes, packet: &[u8]| {
            agreed(hp_wrote { refusal, bytes }, b"H\n").held_against(packet)
        };
        assert!(held(0, 2, b"H\n").is_ok());
        assert!(held(0, 2, b"R\n").is_err());
        assert!(held(0, 1, b"H\n").is_err());
        assert!(held(9, 0, b"").is_err());
    }
}
