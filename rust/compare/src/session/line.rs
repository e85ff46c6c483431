//! A lossy line.

use crate::dice::Dice;

/// A line one way: what goes in comes out in any order, late, more than once, or never.
pub struct Line {
    /// Each with the number of datagrams after which it arrives.
    under_way: Vec<(usize, Vec<u8>)>,
    /// How many were put in.
    sent: usize,
    /// One in so many datagrams is lost; 0 for none.
    loss: usize,
    /// One in four arrives only when up to so many more were put in; 0 for none.
    delay: usize,
}

impl Line {
    /// A line that loses one datagram in so many, and delays others by so many at most; 0 for none.
    pub fn new(loss: usize, delay: usize) -> Line {
        Line {
            under_way: Vec::new(),
            sent: 0,
            loss,
            delay,
        }
    }

    /// Puts a datagram in, at times twice.
    pub fn send(&mut self, datagram: Vec<u8>, dice: &mut Dice) {
        self.sent += 1;
        if self.loss != 0 && dice.one_in(self.loss) {
            return;
        }
        if dice.one_in(6) {
            let due = self.due(dice);
            self.under_way.push((due, datagram.clone()));
        }
        let due = self.due(dice);
        self.under_way.push((due, datagram));
    }

    /// How many datagrams must have been put in when this one arrives.
    fn due(&self, dice: &mut Dice) -> usize {
        if self.delay != 0 && dice.one_in(4) {
            self.sent + 1 + dice.below(self.delay)
        } else {
            self.sent
        }
    }

    /// Hands out one of those that are under way, if it has arrived.
    pub fn receive(&mut self, dice: &mut Dice) -> Option<Vec<u8>> {
        let places = 0..self.under_way.len();
        let arrived: Vec<usize> = places
            .filter(|&place| self.under_way[place].0 <= self.sent)
            .take(4)
            .collect();
        if arrived.is_empty() || dice.one_in(3) {
            return None;
        }
        let (_, datagram) = self.under_way.remove(dice.pick(&arrived));
        Some(datagram)
    }
}
