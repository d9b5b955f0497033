//! Good name tables for random call files: fresh ones, small changes of the last one, replies that fill 512 octets to
//! the octet, and tables of nearly 4,096 octets.

use super::{masks, names};
use crate::random::Random;

pub const LARGEST: usize = 4096;
pub const MOST_RECORDS: usize = 24;
pub const A: u16 = 3;
pub const AAAA: u16 = 4;
const PTR: u16 = 5;

/// A record, or a mask for the records after it.
#[derive(Clone)]
pub struct Record {
    pub kind: u16,
    pub data: Vec<u8>,
}

#[derive(Clone)]
pub struct Name {
    pub shared: bool,
    pub name: Vec<u8>,
    /// With the masks between them.
    pub records: Vec<Record>,
}

/// A table's names, each with its records.
#[derive(Clone, Default)]
pub struct Table {
    pub names: Vec<Name>,
}

pub fn entry(kind: u16, body: &[u8]) -> Vec<u8> {
    let mut entry = ((body.len() + 4) as u16).to_le_bytes().to_vec();
    entry.extend(kind.to_le_bytes());
    entry.extend(body);
    entry
}

impl Table {
    /// A table from octets that are known to be good.
    pub fn read(octets: &[u8]) -> Table {
        let mut table = Table::default();
        let mut at = 0;
        while at + 4 <= octets.len() {
            let length = usize::from(u16::from_le_bytes([octets[at], octets[at + 1]])).max(4);
            let kind = u16::from_le_bytes([octets[at + 2], octets[at + 3]]);
            let body = octets[at + 4..(at + length).min(octets.len())].to_vec();
            match table.names.last_mut() {
                Some(last) if kind > 2 => last.records.push(Record { kind, data: body }),
                _ => table.names.push(Name { shared: kind == 2, name: body, records: Vec::new() }),
            }
            at += length;
        }
        table
    }

    pub fn octets(&self) -> Vec<u8> {
        let mut octets = Vec::new();
        for name in &self.names {
            octets.extend(entry(if name.shared { 2 } else { 1 }, &name.name));
            for record in &name.records {
                octets.extend(entry(record.kind, &record.data));
            }
        }
        octets
    }

    fn has(&self, name: &[u8]) -> bool {
        self.names.iter().any(|other| other.name.eq_ignore_ascii_case(name))
    }

    fn add(&mut self, random: &mut Random, pool: &[Vec<u8>], records: Vec<Record>) {
        for _ in 0..8 {
            let chosen = &pool[random.below(pool.len())];
            let name = if random.chance(1, 3) { names::other_case(random, chosen) } else { chosen.clone() };
            if !self.has(&name) {
                self.names.push(Name { shared: random.chance(1, 4), name, records });
                return;
            }
        }
    }
}

fn record(random: &mut Random, pool: &[Vec<u8>]) -> Record {
    match random.below(8) {
        0..=3 => Record { kind: A, data: random.octets(4) },
        4 | 5 => Record { kind: AAAA, data: random.octets(16) },
        6 => Record { kind: PTR, data: pool[random.below(pool.len())].clone() },
        _ => Record { kind: PTR, data: vec![0] },
    }
}

fn some_records(random: &mut Random, pool: &[Vec<u8>]) -> Vec<Record> {
    let count = random.pick(&[0, 1, 1, 2, 2, 3, 5]);
    (0..count).map(|_| record(random, pool)).collect()
}

/// Records whose reply to type 255 has exactly `total` octets if they were all taken, and sometimes a few more.
fn filling(random: &mut Random, name: usize, total: usize) -> Vec<Record> {
    let mut left = total - (12 + name + 4);
    let mut records = Vec::new();
    let only_targets = random.chance(1, 3);
    while left > 267 || (left > 40 && records.len() < 20 && random.chance(5, 6)) {
        let made = match random.below(6) {
            0..=2 if !only_targets && left > 60 => Record { kind: A, data: random.octets(4) },
            3..=4 if !only_targets && left > 80 => Record { kind: AAAA, data: random.octets(16) },
            _ => {
                let most = (left - 15).min(if records.len() > 10 { 200 } else { 120 });
                let length = random.between(3, most.max(3));
                Record { kind: PTR, data: names::of_length(random, length) }
            }
        };
        left -= 12 + made.data.len();
        records.push(made);
    }
    if left == 13 || left > 14 {
        records.push(Record { kind: PTR, data: names::of_length(random, left - 12) });
    }
    for _ in 0..random.below(3).min(MOST_RECORDS.saturating_sub(records.len())) {
        records.push(Record { kind: PTR, data: vec![0] });
    }
    records
}

/// Many records of one kind, up to 24: 17 AAAA just fit with a short name, 18 do not.
fn many(random: &mut Random, pool: &[Vec<u8>]) -> Vec<Record> {
    let count = random.pick(&[16, 17, 18, 23, 24, 24]);
    match random.below(3) {
        0 => (0..count).map(|_| Record { kind: A, data: random.octets(4) }).collect(),
        1 => (0..count).map(|_| Record { kind: AAAA, data: random.octets(16) }).collect(),
        _ => (0..count).map(|_| record(random, pool)).collect(),
    }
}

/// A good table of nearly or exactly the largest size; one octet more is bad.
fn large(random: &mut Random, pool: &[Vec<u8>]) -> Table {
    let mut table = Table::default();
    let wanted = random.pick(&[4095, LARGEST, LARGEST, 4097, 4090]);
    while table.octets().len() + 300 < wanted {
        if table.names.is_empty() || table.names.len() < 8 && random.chance(1, 12) {
            table.add(random, pool, Vec::new());
        }
        let full = table.names.last().is_none_or(|last| masks::count_records(&last.records) >= 23);
        if full && table.names.len() < 8 {
            table.add(random, pool, Vec::new());
        } else if full {
            break;
        }
        let length = random.between(60, 255);
        let data = names::of_length(random, length);
        if let Some(last) = table.names.last_mut() {
            if random.chance(1, 8) {
                last.records.push(masks::mask(random));
            }
            last.records.push(Record { kind: PTR, data });
        }
    }
    let left = wanted.saturating_sub(table.octets().len());
    if (7..=259).contains(&left) {
        let data = names::of_length(random, left - 4);
        if let Some(last) = table.names.last_mut() {
            last.records.push(Record { kind: PTR, data });
        }
    }
    table
}

pub fn fresh(random: &mut Random, pool: &[Vec<u8>]) -> Table {
    let mut table = Table::default();
    match random.below(40) {
        0 => return table,
        1 => return large(random, pool),
        _ => {}
    }
    let count = random.pick(&[1, 1, 2, 3, 4, 5, 6, 7, 8, 8]);
    for _ in 0..count {
        let mut records = match random.below(12) {
            0 => many(random, pool),
            _ => some_records(random, pool),
        };
        if random.chance(1, 2) {
            masks::put(random, &mut records);
        }
        table.add(random, pool, records);
    }
    if random.chance(1, 3) {
        fill_one(random, &mut table);
    }
    table
}

/// Gives one name records that bring its reply to about 512 octets.
fn fill_one(random: &mut Random, table: &mut Table) {
    if let Some(place) = (!table.names.is_empty()).then(|| random.below(table.names.len())) {
        let total = random.pick(&[500, 511, 512, 512, 512, 513, 514, 525]);
        let length = table.names[place].name.len();
        let mut records = filling(random, length, total);
        records.truncate(MOST_RECORDS);
        if random.chance(1, 2) {
            masks::put_elsewhere(random, &mut records);
        }
        table.names[place].records = records;
    }
}

/// The same table with one thing changed, so that kinds, names or numbers shift under the host's states.
pub fn changed(random: &mut Random, pool: &[Vec<u8>], table: &Table) -> Table {
    let mut table = table.clone();
    if table.names.is_empty() {
        return fresh(random, pool);
    }
    let place = random.below(table.names.len());
    match random.below(13) {
        0 | 1 => table.names[place].shared ^= true,
        2 => drop(table.names.remove(place)),
        3 => {
            let other = random.below(table.names.len());
            table.names.swap(place, other);
        }
        4 if table.names.len() < 8 => {
            let records = some_records(random, pool);
            table.add(random, pool, records);
            let last = table.names.len() - 1;
            table.names.swap(place, last);
        }
        5 => table.names[place].name = names::other_case(random, &table.names[place].name),
        6 => {
            let name = pool[random.below(pool.len())].clone();
            if !table.has(&name) {
                table.names[place].name = name;
            }
        }
        7 => fill_one(random, &mut table),
        8 => table.names[place].records = many(random, pool),
        9 => table.names[place].records = some_records(random, pool),
        _ => masks::change(random, &mut table.names[place].records),
    }
    table
}

#[cfg(test)]
mod tests {
    use super::*;

    #[test]
    fn a_table_is_read_back() {
        let mut random = Random::new(5);
        for _ in 0..200 {
            let pool = names::pool(&mut random);
            let octets = fresh(&mut random, &pool).octets();
            assert_eq!(Table::read(&octets).octets(), octets);
        }
    }

    #[test]
    fn filling_fills() {
        let mut random = Random::new(6);
        let mut exact = 0;
        for _ in 0..200 {
            let records = filling(&mut random, 8, 512);
            let mut total = 24;
            for record in &records {
                total += 12 + record.data.len();
                exact += usize::from(total == 512);
            }
        }
        assert!(exact > 150);
    }
}
