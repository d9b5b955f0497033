//! Addresses and settings for random call files: interfaces whose addresses lie close together, sources just below
//! and above ours, groups in places where they do not belong, and families that mean an unused interface.

use crate::calls::{Address, Setting};
use crate::random::Random;

const GROUP_4: [u8; 16] = [224, 0, 0, 252, 0, 0, 0, 0, 0, 0, 0, 0, 0, 0, 0, 0];
const GROUP_6: [u8; 16] = [0xff, 2, 0, 0, 0, 0, 0, 0, 0, 0, 0, 0, 0, 1, 0, 3];

/// How many octets of an address a family uses.
pub fn used_octets(family: u8) -> usize {
    if family == 4 {
        4
    } else {
        16
    }
}

pub fn used(setting: &Setting) -> bool {
    setting.address.family == 4 || setting.address.family == 6
}

/// The family's group; for family 4 now and then with octets that do not count.
pub fn group(random: &mut Random, family: u8) -> Address {
    let mut octets = if family == 4 { GROUP_4 } else { GROUP_6 };
    if family == 4 && random.chance(1, 5) {
        octets[random.between(4, 15)] = random.octet();
    }
    Address { family, octets }
}

/// An address one octet away from the group.
pub fn near_group(random: &mut Random, family: u8) -> Address {
    let mut address = group(random, family);
    let place = random.below(used_octets(family));
    address.octets[place] = match random.below(3) {
        0 => address.octets[place].wrapping_add(1),
        1 => address.octets[place].wrapping_sub(1),
        _ => address.octets[place] ^ 0x80,
    };
    address
}

fn fresh(random: &mut Random, family: u8) -> Address {
    let mut octets = [0; 16];
    for octet in octets.iter_mut() {
        *octet = random.pick(&[0, 1, 2, 17, 100, 127, 128, 129, 192, 254, 255]);
    }
    if family == 4 && random.chance(1, 2) {
        octets[4..].fill(0);
    }
    Address { family, octets }
}

/// The same address in the octets that count, one place higher or lower, or two places that pull in opposite ways.
pub fn near(random: &mut Random, address: &Address) -> Address {
    let mut near = *address;
    let count = used_octets(address.family);
    let place = random.below(count);
    match random.below(8) {
        0 => {}
        1 | 2 => near.octets[place] = near.octets[place].wrapping_add(1),
        3 | 4 => near.octets[place] = near.octets[place].wrapping_sub(1),
        5 => near.octets[place] ^= 0x80,
        _ => {
            let step = random.pick(&[1, 255]);
            near.octets[place] = near.octets[place].wrapping_add(step);
            for later in place + 1..count {
                near.octets[later] = near.octets[later].wrapping_sub(step);
            }
        }
    }
    if address.family == 4 && random.chance(1, 3) {
        near.octets[random.between(4, 15)] = random.octet();
    }
    near
}

/// Settings that a set-up accepts, with at least one used interface in most.
pub fn settings(random: &mut Random) -> [Setting; 4] {
    let favoured = random.pick(&[4, 6, 0]);
    let interval = random.pick(&[100, 1000, 0]);
    let base = [fresh(random, 4), fresh(random, 6)];
    std::array::from_fn(|_| {
        let family = match random.below(10) {
            0 | 1 => random.pick(&[0, 0, 5, 1, 3, 7, 40, 255]),
            _ if favoured != 0 && random.chance(3, 4) => favoured,
            _ => random.pick(&[4, 6]),
        };
        let mut address = if random.chance(2, 3) { base[usize::from(family == 6)] } else { fresh(random, family) };
        address.family = family;
        if random.chance(1, 2) {
            address = near(random, &address);
        }
        if random.chance(1, 30) {
            address = near_group(random, family);
        }
        let good = if interval != 0 && random.chance(3, 4) { interval } else { random.pick(&[100, 1000]) };
        let any = random.pick(&[0, 99, 100, 1000, 65535]);
        Setting { address, interval: if family == 4 || family == 6 { good } else { any } }
    })
}

/// Makes one interface's settings such as a set-up refuses if the interface is used.
pub fn spoil(random: &mut Random, settings: &mut [Setting; 4]) {
    let setting = &mut settings[random.below(4)];
    match random.below(4) {
        0 => {
            let family = setting.address.family;
            setting.address = group(random, family);
        }
        1 => {
            // The group of the other family is an address like any other.
            setting.address.octets = group(random, if setting.address.family == 4 { 6 } else { 4 }).octets;
        }
        _ => setting.interval = random.pick(&[0, 1, 99, 101, 999, 1001, 10, 10000, 0x6400, 0xe803, 65535]),
    }
}

/// Settings for lookups, which are taken as they are.
pub fn odd_settings(random: &mut Random, own: &[Setting; 4]) -> [Setting; 4] {
    let mut odd = if random.chance(1, 2) { *own } else { settings(random) };
    for _ in 0..random.below(4) {
        spoil(random, &mut odd);
    }
    if random.chance(1, 6) {
        odd[random.below(4)].address.family = random.pick(&[0, 4, 6, 255]);
    }
    odd
}
