//! Logins without a user are among the cases on which the two desks agree, wherever one can stand.

use compare::make::{self, ToFeed};
use compare::plan::cases_of;
use compare::twin::Twin;
use compare::ToAdd;
use ordinary::flat::{
    hp_next_block, hp_packet, hp_soup_read, hp_soup_take, hp_soup_write, hp_ufo_add_message,
    hp_ufo_read_message, hp_ufo_read_up, hp_ufo_write_message,
};
use std::collections::BTreeMap;

/// How a login without a user is refused, and how it would be if it had one (0: not at all).
type Refusals = (u64, u64);

/// How often refusals came up.
#[derive(Debug, Default)]
struct Seen(BTreeMap<Refusals, u64>);

impl Seen {
    fn add(&mut self, nameless: u64, named: u64) {
        *self.0.entry((nameless, named)).or_default() += 1;
    }

    /// Asks that no login without a user was taken, that a desk which does not look at the user would
    /// answer otherwise in many cases, and that these refusals came up.
    fn tells(&self, refusals: &[Refusals]) {
        assert!(self.0.keys().all(|&(nameless, _)| nameless > 0), "{self:?}");
        let otherwise = self.0.iter().filter(|((one, other), _)| one != other);
        let cases: u64 = otherwise.map(|(_, times)| times).sum();
        assert!(cases > 150, "{self:?}");
        for one in refusals {
            assert!(self.0.get(one) > Some(&5), "{one:?} of {self:?}");
        }
    }
}

/// The Soup packet with a user, if it is a login that has none.
fn named(packet: &[u8]) -> Option<Vec<u8>> {
    let nameless = packet.len() == 48 && packet.starts_with(b"L      ");
    nameless.then(|| [b"Lu", &packet[2..]].concat())
}

/// The packet from the client with a user in each login that has none, if there is such a one.
fn all_named(packet: &[u8]) -> Option<Vec<u8>> {
    let mut named = packet.to_vec();
    let mut block = hp_next_block(packet, 0);
    while block.refusal == 0 {
        let message = &mut named[block.start as usize..block.next as usize];
        if message.len() == 27 && message.starts_with(b"L      ") {
            message[1] = b'u';
        }
        block = hp_next_block(packet, block.next);
    }
    (named != packet).then_some(named)
}

/// The fields with a user, if they are a login's that has none.
fn with_user(fields: hp_packet) -> Option<hp_packet> {
    let user = *b"u     ";
    let nameless = fields.r#type == b'L' && fields.user == *b"      ";
    nameless.then_some(hp_packet { user, ..fields })
}

#[test]
fn soup_logins_without_a_user_are_read_among_the_cases() {
    let mut seen = Seen::default();
    for mut dice in cases_of("hp_soup_read") {
        let packet = make::soup_to_read(&mut dice);
        if let Some(named) = named(&packet) {
            let refusal = hp_soup_read(&packet).refusal;
            seen.add(refusal, hp_soup_read(&named).refusal);
        }
    }
    seen.tells(&[(5, 5), (6, 0), (6, 7), (8, 8)]);
}

#[test]
fn soup_logins_without_a_user_are_in_streams_among_the_cases() {
    let mut seen = Seen::default();
    for mut dice in cases_of("hp_soup_take") {
        let ToFeed {
            pieces,
            mut buffer,
            piece,
            place,
        } = ToFeed::made(&mut dice);
        let answer = hp_soup_take(pieces.twin(), &mut buffer, &piece, place);
        if let Some(named) = named(&buffer[..answer.bytes as usize]) {
            seen.add(answer.why, hp_soup_read(&named).refusal);
        }
    }
    seen.tells(&[(5, 5), (6, 0), (6, 7)]);
}

#[test]
fn ufo_logins_without_a_user_are_read_among_the_cases() {
    let (mut whole, mut there, mut elsewhere) = (Seen::default(), Seen::default(), Seen::default());
    for mut dice in cases_of("hp_ufo_read_up") {
        let (packet, _) = make::ufo_up_to_read(&mut dice);
        if let Some(named) = all_named(&packet) {
            let refusal = hp_ufo_read_up(&packet).refusal;
            whole.add(refusal, hp_ufo_read_up(&named).refusal);
        }
    }
    for mut dice in cases_of("hp_ufo_read_message") {
        let (packet, place) = make::ufo_up_to_read(&mut dice);
        if let Some(named) = all_named(&packet) {
            let refusal = hp_ufo_read_message(&packet, place).refusal;
            let read = hp_ufo_read_message(&named, place);
            let seen = if read.packet.user == *b"u     " {
                &mut there
            } else {
                &mut elsewhere
            };
            seen.add(refusal, read.refusal);
        }
    }
    whole.tells(&[(5, 5), (6, 0), (6, 5), (6, 6)]);
    there.tells(&[(6, 0)]);
    elsewhere.tells(&[(5, 5), (6, 0), (6, 4), (6, 5), (6, 6)]);
}

#[test]
fn logins_without_a_user_are_written_among_the_cases() {
    let (mut soup, mut ufo) = (Seen::default(), Seen::default());
    for mut dice in cases_of("hp_soup_write") {
        let (fields, body) = make::soup_to_write(&mut dice);
        let refusal = |fields| hp_soup_write(fields, &body, &mut [0; 48]).refusal;
        if let Some(named) = with_user(fields.twin()) {
            soup.add(refusal(fields.twin()), refusal(named));
        }
    }
    for mut dice in cases_of("hp_ufo_write_message") {
        let (fields, body) = make::ufo_message_to_write(&mut dice);
        let refusal = |fields| hp_ufo_write_message(fields, &body, &mut [0; 29]).refusal;
        if let Some(named) = with_user(fields.twin()) {
            ufo.add(refusal(fields.twin()), refusal(named));
        }
    }
    soup.tells(&[(4, 4), (5, 5), (6, 0), (8, 8)]);
    ufo.tells(&[(4, 4), (5, 5), (6, 0)]);
}

#[test]
fn logins_without_a_user_are_added_and_added_to_among_the_cases() {
    let (mut added, mut added_to) = (Seen::default(), Seen::default());
    for mut dice in cases_of("hp_ufo_add_message") {
        let ToAdd {
            fields,
            body,
            out,
            used,
        } = ToAdd::made(&mut dice);
        let refusal =
            |fields, out: &[u8]| hp_ufo_add_message(fields, &body, &mut out.to_vec(), used).refusal;
        let fields = fields.twin();
        if let Some(named) = with_user(fields) {
            added.add(refusal(fields, &out), refusal(named, &out));
        }
        let used = out.len().min(usize::try_from(used).unwrap_or(usize::MAX));
        if let Some(named) = all_named(&out[..used]) {
            let named = [&named, &out[used..]].concat();
            added_to.add(refusal(fields, &out), refusal(fields, &named));
        }
    }
    added.tells(&[(2, 2), (4, 4), (5, 5), (6, 0), (6, 9)]);
    added_to.tells(&[(5, 5), (6, 0), (6, 2), (6, 5), (6, 7), (6, 9)]);
}
