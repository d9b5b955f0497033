//! What stands after the question of a random response to a host. A name that is lost is left alone for as long as the
//! first answer record claims it: TTLs at the edges, two of them, records that are bad or cut, and one that is not
//! counted.

use super::draft::Draft;
use super::{names, pointers, Maker};
use crate::random::Random;

const TTLS: [u32; 10] = [0, 1, 1, 2, 2, 30, 31, (1 << 31) - 1, 1 << 31, u32::MAX];

impl Maker {
    /// Gives a response its answer section, and the counts after QDCOUNT.
    pub fn put_answers(&mut self, draft: &mut Draft) {
        let random = &mut self.random;
        let mut message = draft.octets();
        let begin = message.len();
        draft.counts[1] = answers(random, &mut message);
        draft.counts[2..].fill_with(|| random.pick(&[0, 0, 1, 2, 65535]));
        draft.after = message.split_off(begin);
    }
}

/// Appends an answer section, and gives the ANCOUNT that goes with it.
fn answers(random: &mut Random, message: &mut Vec<u8>) -> u16 {
    match random.weighted(&[4, 3, 8, 4, 3, 3, 3, 3, 2]) {
        0 => return 0,
        1 => {
            record(random, message);
            return 0;
        }
        2 => record(random, message),
        3 => {
            record(random, message);
            record(random, message);
            return 2;
        }
        4 => {
            record(random, message);
            pointers::bad_owner(random, message);
            fields(random, message);
            return 2;
        }
        5 => {
            pointers::bad_owner(random, message);
            fields(random, message);
        }
        6 => {
            record(random, message);
            message.truncate(message.len() - random.pick(&[1, 1, 1, 2]));
        }
        7 => {
            owner(random, message);
            let begin = message.len();
            fields(random, message);
            message.truncate(begin + random.pick(&[0, 4, 8, 9, 9]));
        }
        _ => {
            let length = random.pick(&[0, 1, 12, 16]);
            message.extend(random.octets(length));
        }
    }
    random.pick(&[1, 1, 1, 2, 256, 65535])
}

fn record(random: &mut Random, message: &mut Vec<u8>) {
    owner(random, message);
    fields(random, message);
}

/// An owner that is good, or one that comes to 17 pointers by way of the question's name.
fn owner(random: &mut Random, message: &mut Vec<u8>) {
    if message[12..].starts_with(&names::ladder()) && random.chance(2, 3) {
        message.extend(pointers::pointer(names::rung(12, random.pick(&[0, 14, 15, 15, 16]))));
    } else {
        pointers::good_owner(random, message, 12);
    }
}

/// What a record has after its owner: type, class, TTL, length and data.
fn fields(random: &mut Random, message: &mut Vec<u8>) {
    message.extend([0, random.pick(&[1, 1, 28, 12, 255, 0])]);
    message.extend([random.pick(&[0, 0, 0, 0x80]), random.pick(&[1, 1, 1, 255, 0])]);
    message.extend(random.pick(&TTLS).to_be_bytes());
    let length = random.pick(&[0, 1, 4, 4, 4, 16, 250]);
    message.extend([0, length as u8]);
    message.extend(random.octets(length));
}
