//! Names for random call files: a pool of names that lie close together, other spellings of a name that are equal to
//! it, names that are nearly equal, and octets that are no name at all.

use crate::random::Random;

/// A name from its labels.
pub fn join(labels: &[Vec<u8>]) -> Vec<u8> {
    let mut name = Vec::new();
    for label in labels {
        name.push(label.len() as u8);
        name.extend(label);
    }
    name.push(0);
    name
}

/// The labels of a name, as far as it has any.
pub fn split(name: &[u8]) -> Vec<Vec<u8>> {
    let mut labels = Vec::new();
    let mut at = 0;
    while at + 1 < name.len() && name[at] != 0 {
        let end = (at + 1 + usize::from(name[at])).min(name.len());
        labels.push(name[at + 1..end].to_vec());
        at = end;
    }
    labels
}

/// A name of exactly `length` octets (1 or at least 3, at most what labels of 63 give).
pub fn of_length(random: &mut Random, length: usize) -> Vec<u8> {
    let mut labels = Vec::new();
    let mut left = length - 1;
    while left > 0 {
        let most = left.min(64);
        let mut whole = if random.chance(1, 2) { most } else { random.between(2, most) };
        if left - whole == 1 {
            whole = if whole == 64 { 63 } else { whole + 1 };
        }
        labels.push((1..whole).map(|_| random.pick(b"abAZz9")).collect());
        left -= whole;
    }
    join(&labels)
}

/// A short label of letters, or of octets that lie beside letters, lengths and pointers.
pub fn label(random: &mut Random) -> Vec<u8> {
    let length = random.pick(&[1, 1, 2, 3, 4, 8]);
    match random.below(5) {
        0 => (0..length).map(|_| random.pick(b"@`[{AaZz^~]}")).collect(),
        1 => (0..length).map(|_| random.pick(&[0xc3, 0x89, 0xe3, 0xa9, 0xc1, 0xe1, 0xda, 0xfa, b'Z'])).collect(),
        2 => {
            (0..length).map(|_| random.pick(&[0, 1, 2, 0x0c, 0x2e, 0x40, 0xc0, 0xff, b'A', b'a', 0x10, 0x30])).collect()
        }
        _ => (0..length).map(|_| random.pick(b"abzABZ019-_@[")).collect(),
    }
}

fn fresh(random: &mut Random, earlier: &[Vec<u8>]) -> Vec<u8> {
    match random.below(14) {
        0..=4 => join(&[[&b"sCale"[..], &[random.pick(b"0123")]].concat()]),
        5 | 6 => join(&[label(random)]),
        7 => {
            let count = random.between(2, 5);
            join(&(0..count).map(|_| label(random)).collect::<Vec<_>>())
        }
        8 => of_length(random, 65),
        9 => {
            let length = random.pick(&[255, 255, 254, 200, 130]);
            of_length(random, length)
        }
        10 if !earlier.is_empty() => {
            let mut labels = split(&earlier[random.below(earlier.len())]);
            labels.truncate(3);
            labels.push(label(random));
            join(&labels)
        }
        11 | 12 if !earlier.is_empty() => {
            let other = earlier[random.below(earlier.len())].clone();
            near(random, &other)
        }
        _ => join(&[label(random), b"local".to_vec()]),
    }
}

/// A name of one label, in which a zero and 16 pointers stand, each of them to the one before if the name is at 12.
pub fn ladder() -> Vec<u8> {
    let pointers = (1..=16).flat_map(|number| [0xc0, rung(12, number - 1) as u8]);
    join(&[[0].into_iter().chain(pointers).collect()])
}

/// The offset of the place in a ladder, which is at `start`, from where so many pointers are followed.
pub fn rung(start: usize, pointers: usize) -> usize {
    start + if pointers == 0 { 1 } else { 2 * pointers }
}

/// The names of one call file, all good and none the root; many are close to each other.
pub fn pool(random: &mut Random) -> Vec<Vec<u8>> {
    let mut names: Vec<Vec<u8>> = Vec::new();
    for _ in 0..12 {
        let name = fresh(random, &names);
        if name.len() > 1 && name.len() <= 255 {
            names.push(name);
        }
    }
    names.push(b"\x06scale3\0".to_vec());
    names.push(ladder());
    names
}

/// The same name with letters raised or lowered: equal to the given one.
pub fn other_case(random: &mut Random, name: &[u8]) -> Vec<u8> {
    let all = random.chance(1, 3);
    let flip = |octet: &u8| {
        if octet.is_ascii_alphabetic() && (all || random.chance(1, 2)) {
            octet ^ 0x20
        } else {
            *octet
        }
    };
    // Lengths are below 64 and so never letters.
    name.iter().map(flip).collect()
}

fn change_octet(random: &mut Random, labels: &mut [Vec<u8>]) {
    let chosen = random.below(labels.len());
    let label = &mut labels[chosen];
    let odd: Vec<usize> = (0..label.len()).filter(|&at| !label[at].is_ascii_alphabetic()).collect();
    if !odd.is_empty() && random.chance(2, 3) {
        // Equal only to a program that folds more than the letters.
        let at = random.pick(&odd);
        label[at] ^= 0x20;
    } else {
        let at = random.below(label.len());
        label[at] = match random.below(4) {
            0 => label[at].wrapping_add(1),
            1 => label[at].wrapping_sub(1),
            2 => label[at] ^ 0x80,
            _ => random.pick(b"@`[{AaZz"),
        };
    }
}

/// Another name that is nearly the given one.
pub fn near(random: &mut Random, name: &[u8]) -> Vec<u8> {
    let mut labels = split(name);
    if labels.is_empty() {
        return join(&[label(random)]);
    }
    let last = labels.len() - 1;
    match random.below(10) {
        0 => labels.push(label(random)),
        1 if last > 0 => drop(labels.pop()),
        2 if last > 0 => drop(labels.remove(0)),
        3 if labels[last].len() > 1 => drop(labels[last].pop()),
        4 if labels[last].len() < 63 && name.len() < 255 => labels[last].push(b'a'),
        5 if last > 0 => labels.swap(0, last),
        _ => change_octet(random, &mut labels),
    }
    join(&labels)
}

/// Octets that are not a good name: most are too long in some way, hold a pointer, or are cut.
pub fn bad(random: &mut Random, name: &[u8]) -> Vec<u8> {
    let body = name[..name.len().saturating_sub(1)].to_vec();
    match random.below(9) {
        0 => [&[64][..], &[b'a'; 64], &[0]].concat(),
        1 => [&body[..], &[64], &[b'b'; 64], &[0]].concat(),
        2 => {
            let length = random.pick(&[256, 256, 257, 300]);
            of_length(random, length)
        }
        3 => [&body[..], &[0xc0, 12]].concat(),
        4 => [&body[..], &[0xc0, 12, 0]].concat(),
        5 => [&body[..], &[random.pick(&[0x40, 0x41, 0x7f, 0x80, 0xbf]), 1, b'a', 0]].concat(),
        6 => body,
        7 => name[..random.below(name.len().max(1))].to_vec(),
        _ => [&body[..], &[random.pick(&[1, 5, 63])]].concat(),
    }
}

#[cfg(test)]
mod tests {
    use super::*;
    use crate::faults;
    use crate::names::read_with_pointers;

    #[test]
    fn a_ladder_is_a_name_with_pointers_in_it() {
        let message = [vec![0; 12], ladder()].concat();
        let read = |at| read_with_pointers(&message, at, faults::NONE);
        assert_eq!(read(12).map(|read| (read.labels.len(), read.pointers)), Some((1, 0)));
        for pointers in 0..=16 {
            assert_eq!(read(rung(12, pointers)).map(|read| (read.labels.len(), read.pointers)), Some((0, pointers)));
        }
    }

    #[test]
    fn names_have_the_wanted_length() {
        let mut random = Random::new(3);
        for length in (3..=300).chain([1]) {
            let name = of_length(&mut random, length);
            assert_eq!(name.len(), length);
            assert_eq!(join(&split(&name)), name);
        }
    }
}
