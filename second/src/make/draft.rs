//! A datagram in parts, put together as a good one and then spoilt in one or two places, for calls 34 and 42 alike.

use super::memory::LAST_TIME;
use super::{addresses, names};
use crate::calls::{Address, Call, Prefix, Setting};
use crate::random::Random;

pub const RESPONSE: u16 = 0x8000;
pub const CONFLICT: u16 = 0x0400;
pub const TRUNCATED: u16 = 0x0200;
pub const TENTATIVE: u16 = 0x0100;

pub struct Draft {
    pub prefix: Prefix,
    pub source: Address,
    pub port: u16,
    pub destination: Address,
    pub id: u16,
    pub flags: u16,
    pub counts: [u16; 4],
    pub name: Vec<u8>,
    pub qtype: u16,
    pub class: u16,
    /// What stands after the question.
    pub after: Vec<u8>,
    /// Cuts or pads the datagram to this many octets.
    pub length: Option<usize>,
}

impl Draft {
    pub fn octets(&self) -> Vec<u8> {
        let mut octets = Vec::new();
        for word in [self.id, self.flags].iter().chain(&self.counts) {
            octets.extend(word.to_be_bytes());
        }
        octets.extend(&self.name);
        octets.extend(self.qtype.to_be_bytes());
        octets.extend(self.class.to_be_bytes());
        octets.extend(&self.after);
        if let Some(length) = self.length {
            octets.resize(length, 0);
        }
        octets
    }

    /// The call of a host's receive with these octets, which are the draft's or others.
    pub fn call(&self, octets: Vec<u8>) -> Call {
        let Draft { prefix, source, port, destination, .. } = *self;
        Call::Datagram { prefix, source, port, destination, octets }
    }

    /// The offset where the answers of a response begin.
    pub fn question_end(&self) -> usize {
        12 + self.name.len() + 4
    }
}

/// What a slip needs to know to come close to what is good.
pub struct Near<'a> {
    pub settings: &'a [Setting; 4],
    pub interface: usize,
    pub clock: u64,
    pub pool: &'a [Vec<u8>],
}

/// How many slips a call gets: most get none.
pub fn slips(random: &mut Random) -> usize {
    random.weighted(&[70, 20, 8, 2])
}

pub fn odd_room(random: &mut Random) -> u32 {
    random.pick(&[0, 1, 12, 100, 511, 511, 511])
}

/// An interface number that is mostly not a used one.
pub fn odd_interface(random: &mut Random, settings: &[Setting; 4]) -> u8 {
    let unused: Vec<u8> = (0..4).filter(|&place| !addresses::used(&settings[usize::from(place)])).collect();
    if !unused.is_empty() && random.chance(1, 2) {
        random.pick(&unused)
    } else {
        random.pick(&[4, 4, 5, 255, 0, 1, 2, 3])
    }
}

pub fn odd_time(random: &mut Random, clock: u64) -> u64 {
    match random.below(24) {
        0..=8 => clock.wrapping_sub(1),
        9..=11 => clock.saturating_sub(random.pick(&[2, 100, 1000, 1 << 32])),
        12 => 0,
        13..=16 => LAST_TIME + 1,
        17 => random.pick(&[u64::MAX, 1 << 63, LAST_TIME + 2, (1 << 48) + clock]),
        18 => LAST_TIME,
        _ => clock,
    }
}

pub fn slip_prefix(random: &mut Random, prefix: &mut Prefix, near: &Near) {
    match random.below(3) {
        0 => prefix.room = odd_room(random),
        1 => prefix.interface = odd_interface(random, near.settings),
        _ => prefix.time = odd_time(random, near.clock),
    }
}

fn other_family(random: &mut Random, family: u8) -> u8 {
    match random.below(4) {
        0 | 1 => 10u8.wrapping_sub(family),
        _ => random.pick(&[0, 5, 255, 4, 6]),
    }
}

fn slip_addresses(random: &mut Random, draft: &mut Draft, near: &Near) {
    let family = draft.source.family;
    match random.below(7) {
        0 => draft.source.family = other_family(random, family),
        1 => draft.destination.family = other_family(random, family),
        2 => {
            draft.source.family = other_family(random, family);
            draft.destination.family = draft.source.family;
        }
        3 => draft.destination = addresses::group(random, family),
        4 => draft.destination = addresses::near_group(random, family),
        5 => draft.destination = near.settings[near.interface].address,
        _ => {
            // Right octets for the other family.
            draft.destination = addresses::group(random, 10u8.wrapping_sub(family));
            draft.destination.family = family;
        }
    }
}

fn slip_question(random: &mut Random, draft: &mut Draft, near: &Near) {
    let whole = draft.question_end();
    match random.below(9) {
        0 | 1 => draft.name = names::bad(random, &draft.name),
        2 => draft.length = Some(random.between(12, whole)),
        3 => draft.length = Some(whole - random.between(1, 5)),
        4 | 5 => draft.name = names::near(random, &draft.name),
        6 => draft.name = near.pool[random.below(near.pool.len())].clone(),
        7 => draft.name = vec![0],
        _ => draft.qtype = random.pick(&[0, 1, 2, 12, 28, 255, 254, 256, 0xff00, 0x0100, 65535]),
    }
}

fn slip_header(random: &mut Random, draft: &mut Draft) {
    match random.below(10) {
        0 | 1 => draft.flags ^= 1 << random.between(11, 14),
        2 | 3 => draft.flags ^= 1 << random.between(0, 3),
        4 => draft.flags ^= 1 << random.below(16),
        5 => draft.flags ^= random.pick(&[RESPONSE, CONFLICT, TENTATIVE]),
        _ => {
            let place = random.pick(&[0, 0, 1, 2]);
            draft.counts[place] = random.pick(&[0, 2, 1, 256, 257, 65535]);
        }
    }
}

/// Spoils one thing of the draft; now and then it stays good all the same.
pub fn slip(random: &mut Random, draft: &mut Draft, near: &Near) {
    match random.below(24) {
        0..=2 => slip_prefix(random, &mut draft.prefix, near),
        3..=5 => slip_addresses(random, draft, near),
        6..=9 => slip_header(random, draft),
        10..=14 => slip_question(random, draft, near),
        15 => draft.length = Some(random.pick(&[0, 1, 2, 3, 10, 11, 11, 12])),
        16 if random.chance(1, 3) => draft.length = Some(random.pick(&[9193, 9194, 9194, 9195, 9195, 9300])),
        16 | 17 => draft.class = random.pick(&[0, 1, 2, 3, 254, 255, 256, 257, 0xff00, 0x8001, 0x00fe, 65535]),
        18 | 19 => {
            let odd = [draft.id ^ 1, draft.id.wrapping_add(1), draft.id.swap_bytes(), draft.prefix.id, 1, 2, 3, 0];
            draft.id = random.pick(&odd);
        }
        20..=22 => {
            let mut own = near.settings[random.pick(&[0, 1, 2, 3, near.interface])].address;
            if random.chance(1, 2) {
                own.family = draft.source.family;
            }
            draft.source = own;
        }
        _ => {
            let family = draft.source.family;
            draft.source = addresses::group(random, family);
        }
    }
}
