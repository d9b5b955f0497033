//! Damaged name tables: each kind of fault that makes a table bad, put into a good one.

use super::tables::{entry, Record, Table, A};
use super::{masks, names};
use crate::random::Random;

/// The offsets of a good table's entries.
fn offsets(octets: &[u8]) -> Vec<usize> {
    let mut found = Vec::new();
    let mut at = 0;
    while at + 4 <= octets.len() {
        found.push(at);
        at += usize::from(u16::from_le_bytes([octets[at], octets[at + 1]])).max(4);
    }
    found
}

fn insert(random: &mut Random, octets: &mut Vec<u8>, new: &[u8]) {
    let mut places = offsets(octets);
    places.push(octets.len());
    let at = random.pick(&places).min(octets.len());
    octets.splice(at..at, new.iter().copied());
}

fn damaged_field(random: &mut Random, octets: &mut [u8]) {
    let places = offsets(octets);
    if places.is_empty() {
        return;
    }
    let at = random.pick(&places);
    if random.chance(1, 2) {
        let length = u16::from_le_bytes([octets[at], octets[at + 1]]);
        let odd =
            [length.wrapping_add(1), length.wrapping_sub(1), 0, 1, 3, 4, 5, 65535, length.swap_bytes(), length + 256];
        octets[at..at + 2].copy_from_slice(&random.pick(&odd).to_le_bytes());
    } else {
        let kind = random.pick(&[0, 0, 6, 6, 7, 255, 0x0100, 0x0101, 0x0301, 65535, 1, 2, 3, 4, 5u16]);
        octets[at + 2..at + 4].copy_from_slice(&kind.to_le_bytes());
    }
}

/// An entry with a body that does not fit its kind.
fn ill_bodied(random: &mut Random, pool: &[Vec<u8>]) -> Vec<u8> {
    let name = pool[random.below(pool.len())].clone();
    let kind = random.pick(&[1, 2, 5]);
    match random.below(10) {
        0 => {
            let length = random.pick(&[0, 3, 5, 16]);
            entry(3, &random.octets(length))
        }
        1 => {
            let length = random.pick(&[0, 4, 15, 17]);
            entry(4, &random.octets(length))
        }
        2 => entry(kind, &[&name[..], &[random.pick(&[0, 1])]].concat()),
        3 => entry(kind, &name[..name.len() - 1]),
        4 => entry(random.pick(&[1, 2]), &[0]),
        5 => entry(kind, &[]),
        6 => entry(kind, &names::bad(random, &name)),
        _ => masks::bad(random),
    }
}

/// An entry that is good by itself but not at every place of a table.
fn ill_placed(random: &mut Random, pool: &[Vec<u8>], table: &Table, octets: &mut Vec<u8>) {
    match random.below(6) {
        0 => {
            let record = entry(A, &random.octets(4));
            octets.splice(0..0, record);
        }
        1 if !table.names.is_empty() => {
            let again = &table.names[random.below(table.names.len())].name;
            let again = names::other_case(random, again);
            let twin = entry(random.pick(&[1, 2]), &again);
            insert(random, octets, &twin);
        }
        2 if !table.names.is_empty() => {
            // Nearly equal to an earlier name, which is good while there is room for it.
            let close = &table.names[random.below(table.names.len())].name;
            let close = names::near(random, close);
            insert(random, octets, &entry(1, &close));
        }
        3 => {
            // Up to 10 names: the ninth is bad.
            for number in 0..10 - table.names.len().min(9) {
                octets.extend(entry(1, &names::join(&[vec![b'#', number as u8]])));
            }
        }
        4 => {
            let mask = masks::mask(random);
            octets.splice(0..0, entry(mask.kind, &mask.data));
        }
        _ => *octets = with_many_records(random, pool, table),
    }
}

/// The table with one name that has 24 records, which is good, or more, which is bad; with masks or without.
fn with_many_records(random: &mut Random, pool: &[Vec<u8>], table: &Table) -> Vec<u8> {
    let mut table = if table.names.is_empty() { Table::read(&entry(1, &pool[0])) } else { table.clone() };
    let place = random.below(table.names.len());
    let records = &mut table.names[place].records;
    for _ in masks::count_records(records)..random.pick(&[24, 25, 25, 26]) {
        records.push(Record { kind: A, data: random.octets(4) });
    }
    if random.chance(1, 2) {
        masks::sprinkle(random, records);
    }
    table.octets()
}

/// The table's octets with one or two faults in them; a few turn out good all the same.
pub fn damaged(random: &mut Random, pool: &[Vec<u8>], table: &Table) -> Vec<u8> {
    let mut octets = table.octets();
    for _ in 0..random.pick(&[1, 1, 1, 2]) {
        match random.below(12) {
            0 => octets.truncate(octets.len().saturating_sub(random.between(1, 3))),
            1 => octets.truncate(random.below(octets.len() + 1)),
            2 => octets.extend(vec![random.pick(&[0, 1, 4]); random.between(1, 4)]),
            3 | 4 => damaged_field(random, &mut octets),
            5..=7 => {
                let bad = ill_bodied(random, pool);
                insert(random, &mut octets, &bad);
            }
            8..=10 => ill_placed(random, pool, table, &mut octets),
            _ => match random.below(6) {
                0 => octets.resize(random.pick(&[4095, 4096, 4097, 5000, 20000]), 0),
                _ => octets = random_octets(random),
            },
        }
    }
    octets
}

fn random_octets(random: &mut Random) -> Vec<u8> {
    let length = random.below(40);
    (0..length).map(|_| random.pick(&[0, 1, 2, 3, 4, 5, 6, 8, 12, 20, 97])).collect()
}
