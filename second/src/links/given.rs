//! Random hosts for one link: family, addresses, interval, tables and the interface that each uses.

use super::host::{group, used_octets, Given};
use super::premise::Premise;
use super::tables::{any_case, random_name, random_table};
use crate::calls::{Address, Prefix, Setting};
use crate::random::Random;

pub const MOST_HOSTS: usize = 8;
const INTERVALS: [u16; 2] = [100, 1000];
/// Families of an interface that is not used.
const NO_FAMILY: [u8; 8] = [0, 1, 2, 3, 5, 7, 64, 255];

/// What all hosts of a link are given; the time of each set-up is still to be filled in.
pub fn random_hosts(random: &mut Random, broken: Option<Premise>) -> Vec<Given> {
    let count = match broken {
        None => random.between(1, MOST_HOSTS),
        Some(_) if random.chance(1, 2) => 2,
        Some(_) => random.between(2, MOST_HOSTS),
    };
    let family = random.pick(&[4, 6]);
    let mut addresses = different_addresses(random, family, count);
    if broken == Some(Premise::DifferentAddresses) {
        addresses[0] = ignored_octets(random, addresses[1]);
        let place = random.below(count);
        addresses.swap(0, place);
    }
    let intervals = intervals(random, count, broken == Some(Premise::OneInterval));
    let name = random_name(random);
    (0..count).map(|host| random_given(random, &name, &addresses, host, intervals[host])).collect()
}

fn intervals(random: &mut Random, count: usize, two: bool) -> Vec<u16> {
    let mut intervals = vec![random.pick(&INTERVALS); count];
    if two {
        intervals.iter_mut().for_each(|interval| *interval = random.pick(&INTERVALS));
        let place = random.below(count);
        // At least one host has the other interval.
        intervals[place] = INTERVALS[usize::from(intervals[(place + 1) % count] == INTERVALS[0])];
    }
    intervals
}

fn random_given(random: &mut Random, name: &[u8], addresses: &[Address], host: usize, interval: u16) -> Given {
    let name = any_case(random, name);
    let table = random_table(random, &name);
    let used = random.below(4);
    let settings = std::array::from_fn(|interface| {
        if interface == used {
            return Setting { address: addresses[host], interval };
        }
        // What else stands in an unused interface must not matter, not even another host's address.
        let octets = random.pick(addresses).octets;
        Setting { address: Address { family: random.pick(&NO_FAMILY), octets }, interval: random.word() as u16 }
    });
    Given {
        table: table.octets,
        names: table.names,
        number: table.number,
        name,
        settings,
        used: used as u8,
        set_up: Prefix { interface: random.octet(), time: 0, id: random.word() as u16, room: random.word() as u32 },
    }
}

/// Addresses that differ in the octets that the family uses, often in one octet alone. None is the group's.
fn different_addresses(random: &mut Random, family: u8, count: usize) -> Vec<Address> {
    let width = if family == 4 { 4 } else { 16 };
    let common = random.octets(16);
    let (way, place) = (random.below(3), random.below(width));
    let mut addresses: Vec<Address> = Vec::new();
    while addresses.len() < count {
        let mut octets = [0; 16];
        octets.copy_from_slice(&common);
        match way {
            0 => octets[place] = edge_octet(random),
            1 => octets[random.below(width)] = edge_octet(random),
            _ => octets[..width].iter_mut().for_each(|octet| *octet = edge_octet(random)),
        }
        let address = ignored_octets(random, Address { family, octets });
        if addresses.iter().chain([&group(family)]).all(|other| used_octets(other) != used_octets(&address)) {
            addresses.push(address);
        }
    }
    addresses
}

fn edge_octet(random: &mut Random) -> u8 {
    if random.chance(1, 2) {
        random.pick(&[0, 1, 2, 127, 128, 129, 254, 255])
    } else {
        random.octet()
    }
}

/// The same address with any octets where its family ignores them.
pub fn ignored_octets(random: &mut Random, mut address: Address) -> Address {
    if address.family == 4 {
        address.octets[4..].copy_from_slice(&random.octets(12));
    }
    address
}

#[cfg(test)]
mod tests {
    use super::{random_hosts, used_octets, Premise};
    use crate::random::Random;

    #[test]
    fn addresses_differ_unless_that_is_broken() {
        for seed in 0..300 {
            for broken in [None, Some(Premise::DifferentAddresses)] {
                let hosts = random_hosts(&mut Random::new(seed), broken);
                let mut used: Vec<_> = hosts.iter().map(|given| used_octets(&given.address()).to_vec()).collect();
                used.sort();
                used.dedup();
                assert_eq!(used.len() < hosts.len(), broken.is_some(), "seed {seed}");
            }
        }
    }

    #[test]
    fn intervals_are_one_unless_that_is_broken() {
        for seed in 0..300 {
            for broken in [None, Some(Premise::OneInterval)] {
                let hosts = random_hosts(&mut Random::new(seed), broken);
                let same = hosts.iter().all(|given| given.interval() == hosts[0].interval());
                assert_eq!(same, broken.is_none(), "seed {seed}");
            }
        }
    }
}
