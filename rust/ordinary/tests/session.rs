//! Whole sessions over a line that loses, doubles and reorders.

mod common;

use common::had::{has_just, ranges, Had};
use common::{area, blocks, extended, memx, memx_data, take_into, Dice};
use ordinary::clock::{Patience, Sheet};
use ordinary::kinds::{Name, Sequence, SessionId};
use ordinary::lend::Log;
use ordinary::record::{Asked, Record};
use ordinary::ufo::{self, read_down, read_message, read_up, Down, Up};

/// A line one way: what goes in comes out in any order, more than once, or never.
struct Line {
    under_way: Vec<Vec<u8>>,
    /// One in so many datagrams is lost; 0 for a line that is cut.
    loss: usize,
    /// How many of those under way may be the next to arrive; 1 keeps them in order.
    shuffle: usize,
}

impl Line {
    fn losing(loss: usize) -> Line {
        Line {
            under_way: Vec::new(),
            loss,
            shuffle: 4,
        }
    }

    fn send(&mut self, datagram: &[u8], dice: &mut Dice) {
        if self.loss == 0 || dice.one_in(self.loss) {
            return;
        }
        self.under_way.push(datagram.to_vec());
        if dice.one_in(6) {
            self.under_way.push(datagram.to_vec());
        }
    }

    fn receive(&mut self, dice: &mut Dice) -> Option<Vec<u8>> {
        if self.under_way.is_empty() || dice.one_in(3) {
            return None;
        }
        let early = dice.below(self.under_way.len().min(self.shuffle));
        Some(self.under_way.remove(early))
    }
}

/// A UFO server and a recorder, with a line each way.
struct Desk {
    dice: Dice,
    log: Log,
    bytes: Vec<u8>,
    record: Record,
    area: Vec<u8>,
    tape: Vec<u8>,
    had: Had,
    down: Line,
    up: Line,
    since_asked: f64,
}

impl Desk {
    fn new(seed: u64, loss: usize) -> Desk {
        Desk {
            dice: Dice::seeded(seed),
            log: Log::default(),
            bytes: vec![0; 60_000],
            record: Record::open_ufo(Name(*b"8841      ")).unwrap(),
            area: area(),
            tape: Vec::new(),
            had: Had::nothing_from(1),
            down: Line::losing(loss),
            up: Line::losing(loss),
            since_asked: 0.0,
        }
    }

    /// The server adds a message and sends it as it comes.
    fn publish(&mut self) {
        let size = self.dice.pick(&[0, 1, 12, 12, 60, 700]);
        let message = self.dice.bytes(size);
        self.log.add(&mut self.bytes, &message).unwrap();
        self.answer(self.log.count as u32, 1);
    }

    fn answer(&mut self, first: u32, count: u16) {
        let mut slip = [0; ufo::LIMIT];
        let answer = self.log.answer(&self.bytes, first, count, &mut slip);
        self.down.send(&slip[..answer.unwrap()], &mut self.dice);
    }

    /// The server sends its heartbeat, or the end once that is declared.
    fn beat(&mut self) {
        let mut slip = [0; 7];
        let packet = if self.log.ended {
            self.log.end_packet(&self.bytes, &mut slip)
        } else {
            self.log.heartbeat(&self.bytes, &mut slip)
        };
        self.down.send(&slip[..packet.unwrap()], &mut self.dice);
    }

    /// The server answers every request in what reaches it.
    fn serve(&mut self) {
        while let Some(packet) = self.up.receive(&mut self.dice) {
            let messages = read_up(&packet).unwrap();
            let mut place = 0;
            for _ in 0..messages {
                let (message, next) = read_message(&packet, place).unwrap();
                place = next;
                if let Up::Request { first, count } = message {
                    self.answer(first.0 as u32, count);
                }
            }
        }
    }

    /// The recorder takes what reaches it; none of it may be refused.
    fn listen(&mut self) {
        while let Some(datagram) = self.down.receive(&mut self.dice) {
            let (tape, _) = take_into(&mut self.record, &mut self.area, &datagram).unwrap();
            self.tape.extend(tape);
            assert_eq!(self.tape, self.bytes[..self.tape.len()]);
            match read_down(&datagram).unwrap() {
                Down::Sequenced { first, count, .. } => self.had.arrive(first.0, count.into()),
                Down::End { total } => self.had.arrive(total + 1, 0),
                other => panic!("{other:?}"),
            }
            has_just(&self.record, &self.had);
        }
        self.since_asked += 40.0;
    }

    /// The recorder asks if a request is due.
    fn ask(&mut self) {
        let patience = Patience::Fixed(100.0);
        let asked = self
            .record
            .ask(&Sheet::default(), &patience, self.since_asked);
        if let Asked::Request {
            first,
            count,
            record,
        } = asked.unwrap()
        {
            let (_, last) = self.had.missing()[0];
            assert_eq!(first, self.record.next);
            assert_eq!(u64::from(count), last - first.0 + 1);
            self.record = record;
            self.since_asked = 0.0;
            let mut slip = [0; 9];
            let length = ufo::write_message(&Up::Request { first, count }, &mut slip).unwrap();
            self.up.send(&slip[..length], &mut self.dice);
        }
    }

    fn round(&mut self) {
        self.serve();
        self.listen();
        self.ask();
    }
}

#[test]
fn a_line_that_loses_still_brings_everything_in_the_end() {
    for seed in 0..60 {
        let mut desk = Desk::new(seed, 2 + seed as usize % 5);
        for _ in 0..80 {
            desk.publish();
            desk.round();
            if desk.dice.one_in(5) {
                desk.beat();
            }
            assert!(!desk.record.standing().unwrap().complete);
        }
        desk.log.declare_end(&desk.bytes).unwrap();
        let mut rounds = 0;
        while !desk.record.standing().unwrap().complete {
            desk.beat();
            desk.round();
            rounds += 1;
            assert!(rounds < 5000, "seed {seed}: {:?}", desk.record);
        }
        assert_eq!(desk.tape, desk.bytes[..desk.log.used]);
        assert_eq!(desk.record.next, Sequence(81));
    }
}

#[test]
fn a_line_that_is_cut_leaves_exactly_the_missing_numbers() {
    let (mut lacking, mut in_pieces, mut had) = (0, 0, 0);
    for seed in 100..160 {
        let mut desk = Desk::new(seed, 3);
        for _ in 0..40 {
            desk.publish();
            desk.round();
        }
        // the way up is cut, so nothing is sent again; of the way down only the end arrives
        desk.up.loss = 0;
        desk.up.under_way.clear();
        desk.down.under_way.clear();
        desk.log.declare_end(&desk.bytes).unwrap();
        for _ in 0..60 {
            desk.beat();
            desk.listen();
        }
        let missing = ranges(&desk.record);
        lacking += usize::from(!missing.is_empty());
        in_pieces += usize::from(missing.len() > 1);
        had += desk.had.next - 1 + desk.had.held().len() as u64;
        assert_eq!((desk.had.top, desk.record.ended), (40, true));
    }
    assert!(lacking > 10, "the line was hardly ever cut in time");
    assert!(in_pieces > 5, "hardly ever was more than one range missing");
    assert!(had > 60 * 20, "hardly anything arrived before");
}

/// The messages, two by two, each pair with a heartbeat behind it and the shutdown at the end, as they
/// go over a line that loses one in thirty; the shutdown is not lost.
fn broadcast(messages: &[Vec<u8>], extra: &[u8], shuffle: usize, dice: &mut Dice) -> Line {
    let mut line = Line::losing(30);
    line.shuffle = shuffle;
    for (first, pair) in (1..).step_by(2).zip(messages.chunks(2)) {
        let pair: Vec<&[u8]> = pair.iter().map(Vec::as_slice).collect();
        let pair = memx_data(7, first, &pair);
        line.send(&extended(&pair, extra), dice);
        line.send(&extended(&memx(0, 7, first + 1), extra), dice);
    }
    line.loss = usize::MAX;
    let shutdown = memx(1, 7, messages.len() as u64);
    line.send(&extended(&shutdown, extra), dice);
    line
}

/// How long the message of a broadcast is: every fifth is too long to be held.
fn length(number: u8) -> usize {
    match number % 5 {
        2 => 1470,
        4 => 1471 + usize::from(number) * 50,
        _ => 3,
    }
}

#[test]
fn a_broadcast_that_loses_lacks_just_the_holes_while_they_are_near() {
    let messages: Vec<Vec<u8>> = (1..=50)
        .map(|number| vec![number; length(number)])
        .collect();
    let lent: Vec<&[u8]> = messages.iter().map(Vec::as_slice).collect();
    let (mut complete, mut in_pieces) = (0, 0);
    for seed in 200..300 {
        let mut dice = Dice::seeded(seed);
        // two broadcasters in four have a longer header
        let extra = &[0, 1, 0, 0, 0xff][..seed as usize / 2 % 2 * 5];
        let mut line = broadcast(&messages, extra, 1 + seed as usize % 3, &mut dice);
        let (mut record, mut area) = (Record::open_memx(SessionId(7)), area());
        let mut delivered = Vec::new();
        let mut had = Had::nothing_from(1).but_for(|number| number % 5 == 4);
        while !line.under_way.is_empty() {
            if let Some(datagram) = line.receive(&mut dice) {
                let (tape, _) = take_into(&mut record, &mut area, &datagram).unwrap();
                delivered.extend(tape);
                // the number is in the eighteenth byte: a pair's first, or the highest published
                let number = u64::from(datagram[17]);
                match datagram[0] {
                    2 => had.arrive(number, 2),
                    _ => had.arrive(number + 1, 0),
                }
                has_just(&record, &had);
            }
        }
        assert_eq!(delivered, blocks(&lent[..had.next as usize - 1]));
        assert!(record.ended && had.top == 50, "seed {seed}");
        complete += usize::from(had.next == 51);
        in_pieces += usize::from(had.missing().len() > 1);
    }
    assert!((10..90).contains(&complete), "{complete} of 100 complete");
    assert!(in_pieces > 10, "{in_pieces} lack more than one range");
}
