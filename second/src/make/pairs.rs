//! Random pairs of names for the comparison: one name spelled twice, in other letter cases and cut by pointers at other
//! labels; names that are nearly equal; names that cannot be read. They stand in one message or in two.

use super::names::{join, of_length, other_case, split};
use super::pointers::pointer;
use super::sheet::{Place, Sheet};
use crate::names::{length, Labels};
use crate::random::Random;

/// Two names, each at an offset of a message; without another message both are of the same.
pub struct Pair {
    pub message: Vec<u8>,
    pub at: usize,
    pub other: Option<Vec<u8>>,
    pub other_at: usize,
}

fn some_pointers(random: &mut Random) -> usize {
    let few = random.between(2, 5);
    let many = random.between(6, 15);
    [0, 1, few, many, 16, 17][random.weighted(&[28, 28, 20, 8, 12, 4])]
}

/// Pairs of octets that differ by 32 and are not the two cases of a letter.
const BY_32: [(u8, u8); 12] = [
    (b'@', b'`'),
    (b'[', b'{'),
    (b'_', 0x7f),
    (0xc4, 0xe4),
    (0xc1, 0xe1),
    (0xda, 0xfa),
    (0x80, 0xa0),
    (0, 32),
    (16, 48),
    (b'!', b'A'),
    (b':', b'Z'),
    (b'z', 0x9a),
];

fn label(random: &mut Random, size: usize) -> Vec<u8> {
    match random.below(6) {
        0 => vec![random.pick(b"aA"); size],
        1 => (0..size).map(|_| random.pick(&[0, 1, 2, 12, 16, 48, 63, 64, 65, 90, 91, 96, 97, 122, 0xc0])).collect(),
        2 => (0..size).map(|_| random.octet()).collect(),
        _ => (0..size).map(|_| random.pick(b"abzABZ019-@`[{")).collect(),
    }
}

fn labels(random: &mut Random, count: usize, sizes: &[usize]) -> Labels {
    let sizes: Vec<usize> = (0..count).map(|_| random.pick(sizes)).collect();
    sizes.into_iter().map(|size| label(random, size)).collect()
}

fn name(random: &mut Random) -> Labels {
    let few = random.between(1, 5);
    match random.below(40) {
        0 | 1 => Labels::new(),
        2..=4 => {
            let length = random.pick(&[254, 255, 255, 256]);
            split(&of_length(random, length))
        }
        5 => {
            let count = random.pick(&[126, 127, 127, 128]);
            labels(random, count, &[1])
        }
        6 => labels(random, few + 8, &[1, 2]),
        7..=10 => labels(random, few.min(3), &[1, 15, 16, 17, 62, 63]),
        11..=14 => labels(random, few, &[1, 7, 8, 9, 15, 16, 17]),
        15..=19 => labels(random, 1, &[1, 2, 6, 16, 63]),
        _ => labels(random, few, &[1, 1, 2, 3, 4, 6]),
    }
}

/// A first, a middle or a last place of so many, or any.
fn edge(random: &mut Random, count: usize) -> usize {
    let any = random.below(count);
    random.pick(&[0, count / 2, count - 1, any])
}

/// A name that is nearly `one`, which may be changed for it.
fn near(random: &mut Random, one: &mut Labels) -> Labels {
    if one.is_empty() {
        return labels(random, 1, &[1, 1, 63]);
    }
    let mut other = split(&other_case(random, &join(one)));
    let count = one.len();
    let chosen = edge(random, count);
    let size = one[chosen].len();
    let at = edge(random, size);
    match random.below(14) {
        0..=2 => other[chosen][at] = one[chosen][at].wrapping_add(random.pick(&[1, 2, 31, 33, 64, 128, 255])),
        3..=5 => (one[chosen][at], other[chosen][at]) = random.pick(&BY_32),
        6 if size > 1 => other[chosen].truncate(random.between(1, size - 1)),
        7 if size < 63 => other[chosen].extend(label(random, 1)),
        8 => other.truncate(chosen),
        9 => drop(other.drain(..=chosen)),
        10 => other.insert(chosen + random.below(2), label(random, size)),
        11 if chosen + 1 < count => recut(random, &mut other[chosen..chosen + 2]),
        12 if chosen + 1 < count && size + other[chosen + 1].len() < 63 => {
            // One label whose octets are those of two, with the length or a dot between.
            let next = other.remove(chosen + 1);
            other[chosen].push(random.pick(&[next.len() as u8, b'.']));
            other[chosen].extend(next);
        }
        13 => other[chosen] = label(random, size),
        _ => other.swap(chosen, count - 1),
    }
    other
}

/// Cuts the octets of two labels at another place.
fn recut(random: &mut Random, two: &mut [Vec<u8>]) {
    let octets = two.concat();
    let least = octets.len().saturating_sub(63).max(1);
    let (first, second) = octets.split_at(random.between(least, (octets.len() - 1).min(63)));
    (two[0], two[1]) = (first.to_vec(), second.to_vec());
}

/// Two names that may be equal, in one message or in two.
fn spelled(random: &mut Random, one: &Labels, other: &Labels) -> Pair {
    let room = length(one) + length(other) < 200;
    let mut sheet = Sheet::new(random, room);
    let (count, other_count) = (some_pointers(random), some_pointers(random));
    let at = sheet.spell(random, one, count, None);
    if random.chance(2, 5) {
        let mut second = Sheet::new(random, room);
        if random.chance(1, 3) {
            second.octets.resize(sheet.places.iter().map(|place| place.at).min().unwrap_or(12), 0);
        }
        let other_count = if random.chance(1, 3) { count } else { other_count };
        let other_at = second.spell(random, other, other_count, None);
        return Pair { message: sheet.octets, at, other: Some(second.octets), other_at };
    }
    let end = if random.chance(2, 3) { sheet.shared(random, one, other, other_count) } else { None };
    let other_at = match end {
        Some(end) if end.labels == other.len() && random.chance(1, 4) => end.at,
        _ => sheet.spell(random, other, other_count, end),
    };
    Pair { message: sheet.octets, at, other: None, other_at }
}

/// A message and its copy, in which octets of labels are changed: equal targets, and names that may differ.
fn copied(random: &mut Random, one: &Labels) -> Pair {
    let mut sheet = Sheet::new(random, length(one) < 200);
    let count = some_pointers(random).min(16);
    let at = sheet.spell(random, one, count, None);
    let mut other = sheet.octets.clone();
    let places = sheet.label_octets();
    if random.chance(1, 2) {
        places.iter().for_each(|&at| other[at] = other_case(random, &[other[at]])[0]);
    }
    if !places.is_empty() && random.chance(2, 3) {
        let place = places[edge(random, places.len())];
        let changed = other[place].wrapping_add(random.pick(&[1, 32, 64, 128, 224]));
        let by_32 = random.pick(&BY_32);
        (sheet.octets[place], other[place]) = random.pick(&[(sheet.octets[place], changed), by_32]);
    }
    Pair { message: sheet.octets, at, other: Some(other), other_at: at }
}

/// Appends what cannot be read as the end of a name whose run of labels began at `run`; a good name stands at `good`.
/// Much of it could be read but for one rule.
fn bad_end(random: &mut Random, octets: &mut Vec<u8>, run: usize, good: usize) {
    let at = octets.len();
    let [high, low] = pointer(good);
    match random.below(12) {
        0 => octets.extend(pointer(run)),
        1 => octets.extend(pointer(at)),
        2 => octets.extend(pointer(random.pick(&[0, 4, 10, 11, 11]))),
        3 => octets.extend([pointer(at + 2), [0, 0]].concat()),
        4 => octets.extend([random.pick(&[64, 65, 96, 127, 128, 160, 191]), b'a', 0]),
        5 => octets.extend(pointer(random.between(run, at))),
        6 => octets.extend(pointer(random.pick(&[at + 3, 0x3fff]))),
        // Two pointers that lead to each other.
        7 => octets.extend([pointer(at + 2), pointer(at)].concat()),
        // Into a label of the run itself, which holds the end of a name.
        8 => octets.extend([[1, 0], pointer(at + 1)].concat()),
        9 => octets.extend([&[64], &[b'a'; 64][..], &[0]].concat()),
        // A pointer to the good name but for one of its two top bits, or with one bit more in its target.
        10 => octets.extend([high ^ random.pick(&[0x40, 0x80]), low, 0]),
        _ => octets.extend([high | random.pick(&[4, 8, 16, 32]), low]),
    }
}

/// Names that cannot be read, against themselves, each other and a good name that begins in the same way.
fn unreadable(random: &mut Random, name: &Labels) -> Pair {
    let mut sheet = Sheet::new(random, length(name) < 100);
    let count = some_pointers(random).min(16);
    let good = sheet.spell(random, name, count, None);
    let whole = sheet.octets.clone();
    if random.chance(1, 4) {
        sheet.octets.truncate(whole.len() - random.pick(&[1, 1, 1, 2]));
        let other = random.pick(&[None, Some(&sheet.octets), Some(&whole)]).cloned();
        return Pair { message: sheet.octets, at: good, other, other_at: good };
    }
    let bad = sheet.octets.len();
    let begun = name.len().min(random.pick(&[0, 1, 3, 127]));
    let piece = join(&name[..begun]);
    sheet.octets.extend(&piece[..piece.len() - 1]);
    bad_end(random, &mut sheet.octets, bad, good);
    let end = Some(Place { at: bad, labels: 0, pointers: 0 });
    let front: Labels = name.iter().take(1).cloned().collect();
    let (count, other_count) = (random.between(1, 3), random.between(1, 3));
    let (at, other_at) = match random.below(6) {
        0 => (bad, bad),
        1 | 2 => (good, bad),
        3 => (bad, sheet.spell(random, &front, count, end)),
        // Two names with the same end, which cannot be read.
        4 => (sheet.spell(random, &front, count, end), sheet.spell(random, &front, other_count, end)),
        _ => {
            let second = sheet.octets.len();
            bad_end(random, &mut sheet.octets, second, good);
            (bad, second)
        }
    };
    let other = random.chance(1, 3).then(|| sheet.octets.clone());
    Pair { message: sheet.octets, at, other, other_at }
}

/// Octets that are often lengths, pointers and ends, or any octets.
fn any_octets(random: &mut Random) -> Vec<u8> {
    let size = random.pick(&[0, 1, 12, 13, 14, 20, 30, 60]);
    let any = random.chance(1, 4);
    let octet =
        |_| if any { random.octet() } else { random.pick(&[0, 1, 1, 2, 3, 12, 13, 14, 16, 0xc0, 0xc0, b'a', b'A']) };
    (0..size).map(octet).collect()
}

fn any(random: &mut Random) -> Pair {
    let message = any_octets(random);
    let other = random.chance(1, 2).then(|| any_octets(random));
    let at = random.below(message.len() + 2);
    let other_at = random.below(other.as_ref().unwrap_or(&message).len() + 2);
    Pair { message, at, other, other_at }
}

/// Takes offsets at and past the end, or others than where the names begin.
fn slip(random: &mut Random, pair: &mut Pair) {
    let size = pair.message.len();
    let past = random.pick(&[0, 11, size.saturating_sub(1), size, size + 1, 65535, 1 << 32, usize::MAX]);
    match random.below(4) {
        0 => pair.at = past,
        1 => (pair.at, pair.other_at) = (past, past),
        2 => pair.at = pair.at.wrapping_add(random.pick(&[1, 2, usize::MAX])),
        _ => pair.other_at += random.pick(&[1, 2, 3]),
    }
}

/// The random pair of a seed.
pub fn make(seed: u64) -> Pair {
    let random = &mut Random::new(seed);
    let mut one = name(random);
    let mut pair = match random.weighted(&[40, 38, 8, 10, 4]) {
        0 => {
            let other = split(&other_case(random, &join(&one)));
            spelled(random, &one, &other)
        }
        1 => {
            let other = if random.chance(1, 20) { name(random) } else { near(random, &mut one) };
            spelled(random, &one, &other)
        }
        2 => copied(random, &one),
        3 => unreadable(random, &one),
        _ => any(random),
    };
    if random.chance(1, 30) {
        slip(random, &mut pair);
    }
    pair
}
