//! Random good tables that all hold one unique name, at any number and in any letter case, among other names.

use crate::random::Random;

const MOST_OCTETS: usize = 4096;
const MOST_NAMES: usize = 8;
const MOST_RECORDS: usize = 24;
/// A name's entry has at most this many octets.
const LONGEST_ENTRY: usize = 4 + 255;

/// A table, how many names it has, and the number of the name among them.
pub struct Table {
    pub octets: Vec<u8>,
    pub names: u8,
    pub number: u8,
}

/// Any name but the root: mostly a short single label, at times of other octets, several labels or full length.
pub fn random_name(random: &mut Random) -> Vec<u8> {
    let texts: [&[u8]; 6] = [b"scale3", b"Scale-07", b"s", b"a@b`c[d{", b"w\xc3\xa4gen\xc3\x84", b"\x00\xff."];
    let mut name = Vec::new();
    match random.weighted(&[5, 2, 1, 1]) {
        0 => put_label(&mut name, random.pick(&texts)),
        1 => put_label(&mut name, &some_octets(random, 1, 63)),
        2 => (0..random.between(2, 4)).for_each(|_| put_label(&mut name, &some_octets(random, 1, 20))),
        // 3 × 64 + 62 octets and the final zero are 255.
        _ => [63, 63, 63, 61].iter().for_each(|&length| put_label(&mut name, &some_octets(random, length, length))),
    }
    name.push(0);
    name
}

fn some_octets(random: &mut Random, least: usize, most: usize) -> Vec<u8> {
    let length = random.between(least, most);
    random.octets(length)
}

fn put_label(name: &mut Vec<u8>, label: &[u8]) {
    name.push(label.len() as u8);
    name.extend(label);
}

/// The same name with each ASCII letter in a random case; a length octet, at most 63, is none.
pub fn any_case(random: &mut Random, name: &[u8]) -> Vec<u8> {
    let flip = |octet: &u8| if octet.is_ascii_alphabetic() && random.chance(1, 2) { octet ^ 32 } else { *octet };
    name.iter().map(flip).collect()
}

pub fn random_table(random: &mut Random, name: &[u8]) -> Table {
    let names = random.between(1, MOST_NAMES);
    let number = random.below(names);
    let mut taken = vec![name.to_ascii_lowercase()];
    let mut octets = Vec::new();
    for place in 0..names {
        let (kind, body) = if place == number {
            (1, name.to_vec())
        } else {
            (1 + random.below(2) as u16, other_name(random, name, &mut taken))
        };
        put_entry(&mut octets, kind, &body);
        let most = if random.chance(1, 4) { MOST_RECORDS } else { 3 };
        for _ in 0..random.between(0, most) {
            put_record(random, &mut octets, MOST_OCTETS - (names - 1 - place) * LONGEST_ENTRY);
        }
    }
    Table { octets, names: names as u8, number: number as u8 }
}

/// A name that equals none of those taken, often close to the link's name.
fn other_name(random: &mut Random, name: &[u8], taken: &mut Vec<Vec<u8>>) -> Vec<u8> {
    loop {
        let other = match random.below(3) {
            0 => random_name(random),
            _ => close_name(random, name),
        };
        // Folding is by ASCII alone, rule M10.
        let folded = other.to_ascii_lowercase();
        if !taken.contains(&folded) {
            taken.push(folded);
            return other;
        }
    }
}

/// The name with one octet of its first label changed, or with one label more if that still fits.
fn close_name(random: &mut Random, name: &[u8]) -> Vec<u8> {
    let mut close = name.to_vec();
    if random.chance(1, 2) || name.len() > 250 {
        let place = random.between(1, usize::from(name[0]));
        close[place] ^= random.pick(&[32, 1, 128, 64]);
    } else {
        let label = some_octets(random, 1, 3);
        close.splice(0..0, std::iter::once(label.len() as u8).chain(label.iter().copied()));
    }
    close
}

/// One more record, or a mask for those after it, unless the table would then pass `most` octets.
fn put_record(random: &mut Random, table: &mut Vec<u8>, most: usize) {
    let (kind, body) = match random.below(4) {
        0 => (3, random.octets(4)),
        1 => (4, random.octets(16)),
        2 => (6, vec![random.between(1, 15) as u8]),
        _ if random.chance(1, 4) => (5, vec![0]),
        _ => (5, random_name(random)),
    };
    if table.len() + 4 + body.len() <= most {
        put_entry(table, kind, &body);
    }
}

fn put_entry(table: &mut Vec<u8>, kind: u16, body: &[u8]) {
    table.extend((4 + body.len() as u16).to_le_bytes());
    table.extend(kind.to_le_bytes());
    table.extend(body);
}

#[cfg(test)]
mod tests {
    use super::{any_case, random_name, random_table};
    use crate::calls::Call;
    use crate::lines::Outcome;
    use crate::random::Random;
    use crate::session::Session;

    #[test]
    fn tables_are_good() {
        for seed in 0..300 {
            let mut random = Random::new(seed);
            let name = random_name(&mut random);
            let name = any_case(&mut random, &name);
            let table = random_table(&mut random, &name);
            let outcome = Session::new(0).call(&Call::Table(table.octets));
            assert_eq!(outcome, Outcome::Good { names: usize::from(table.names) }, "seed {seed}");
        }
    }
}
