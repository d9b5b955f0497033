//! Names with compression pointers: chains of up to 17 pointers, targets at and beyond each bound, expanded names of
//! 255 and 256 octets, no label and 127 of them; as owners of answer records and as messages for entry 54.

use super::names;
use super::sheet::Sheet;
use super::Maker;
use crate::calls::Call;
use crate::random::Random;

/// The two octets of a pointer.
pub fn pointer(target: usize) -> [u8; 2] {
    [0xc0 | (target >> 8) as u8 & 0x3f, target as u8]
}

/// Offsets where a name that begins at `start` has a label, a pointer or its end.
fn label_places(message: &[u8], start: usize) -> Vec<usize> {
    let mut places = Vec::new();
    let mut at = start;
    while at < message.len() {
        places.push(at);
        if message[at] == 0 || message[at] > 63 {
            break;
        }
        at += 1 + usize::from(message[at]);
    }
    places
}

fn short_labels(random: &mut Random) -> Vec<u8> {
    let mut labels = Vec::new();
    for _ in 0..random.pick(&[0, 0, 1, 1, 2]) {
        let length = random.pick(&[1, 1, 2, 5]);
        labels.push(length as u8);
        // Octets that may serve as lengths, for pointers into the middle of a label.
        labels.extend((0..length).map(|_| random.pick(&[0, 1, 2, 0xc0, 12, b'a', b'Z'])));
    }
    labels
}

/// Appends a name that is good if the one at `earlier` is.
pub fn good_owner(random: &mut Random, message: &mut Vec<u8>, earlier: usize) {
    match random.below(8) {
        0 | 1 => message.extend(pointer(earlier)),
        2 => message.extend(pointer(12)),
        3 => message.push(0),
        4 => message.extend(names::join(&[b"scale3".to_vec()])),
        5 => {
            let places = label_places(message, 12);
            let target = if places.is_empty() { 12 } else { random.pick(&places) };
            message.extend(short_labels(random));
            message.extend(pointer(target));
        }
        _ => {
            message.extend(short_labels(random));
            message.extend(pointer(earlier));
        }
    }
}

/// Appends a name that follows one pointer more than the one at `earlier`.
pub fn next_owner(random: &mut Random, message: &mut Vec<u8>, earlier: usize) {
    if random.chance(1, 4) {
        message.extend([1, b'a']);
    }
    message.extend(pointer(earlier));
}

/// Appends octets that are mostly not a good name at their place.
pub fn bad_owner(random: &mut Random, message: &mut Vec<u8>) {
    let start = message.len();
    match random.below(10) {
        0 => message.extend(pointer(start)),
        1 => message.extend(pointer(start + random.between(1, 4))),
        2 => message.extend(pointer(random.pick(&[0, 2, 4, 10, 11]))),
        3 => {
            // Into the run of labels that the pointer ends, where the octets would do as a name.
            message.extend([2, random.pick(&[0, 1]), 0]);
            message.extend(pointer(start + random.below(4)));
        }
        4 => message.push(random.pick(&[0x40, 0x41, 0x80, 0xbf])),
        5 => message.extend([1, b'a', 0xc0]),
        6 => message.extend([random.pick(&[5, 63]), b'a']),
        7 => message.extend(pointer(random.between(12, start.max(13)))),
        8 => {
            // The labels here and those at 12 together come to about 255 octets.
            let rest: usize = label_places(message, 12).last().map_or(1, |last| last + 1 - 12);
            let wanted = random.pick(&[254, 255, 256, 257usize]).saturating_sub(rest);
            if wanted > 1 {
                let mut name = names::of_length(random, wanted + 1);
                name.pop();
                message.extend(name);
            }
            message.extend(pointer(12));
        }
        _ => message.extend(pointer(0x3fff)),
    }
}

/// Appends a chain of names, each pointing at the one before; gives the offset of the last.
fn chain(random: &mut Random, message: &mut Vec<u8>, first: usize, links: usize) -> usize {
    let mut earlier = first;
    for _ in 0..links {
        let start = message.len();
        if random.chance(1, 3) {
            message.extend(short_labels(random));
        }
        message.extend(pointer(earlier));
        // Sometimes the next pointer goes to this pointer itself, past the labels before it.
        earlier = if random.chance(1, 4) { message.len() - 2 } else { start };
        if random.chance(1, 6) {
            message.extend([0, 1]);
        }
    }
    earlier
}

/// A chain whose expanded name has about 255 octets.
fn long_chain(random: &mut Random, message: &mut Vec<u8>) -> usize {
    let wanted = random.pick(&[254, 255, 255, 256, 256, 257]);
    let mut left = wanted;
    let mut earlier = message.len();
    let first = random.pick(&[1, 3, 20, 100]);
    message.extend(names::of_length(random, first));
    left -= first;
    while left > 0 {
        let start = message.len();
        let piece = if left <= 64 { left } else { random.between(2, 64.min(left - 2)) };
        if piece >= 2 {
            message.push(piece as u8 - 1);
            message.extend(vec![b'x'; piece - 1]);
        }
        left -= piece;
        if left > 66 && random.chance(1, 2) {
            message.extend([63; 64]);
            left -= 64;
        }
        message.extend(pointer(earlier));
        earlier = start;
    }
    earlier
}

/// A name with as few labels or as many as there can be, or one more, with up to 17 pointers; gives its offset.
fn few_or_many(random: &mut Random, message: &mut Vec<u8>) -> usize {
    let count = random.pick(&[0, 0, 0, 1, 126, 127, 127, 127, 128]);
    let labels = (0..count).map(|_| vec![random.octet()]).collect();
    let pointers = random.pick(&[0, 0, 1, 2, 15, 16, 16, 17]);
    let mut sheet = Sheet { octets: std::mem::take(message), places: Vec::new() };
    let offset = sheet.spell(random, &labels, pointers, None);
    *message = sheet.octets;
    offset
}

/// Names before the one that is read need both octets of a pointer at higher offsets; 16,383 is the highest.
fn first_offset(random: &mut Random) -> usize {
    match random.below(60) {
        0 => random.between(16_360, 16_400),
        1..=8 => random.between(240, 300),
        9 => 4096,
        _ => 12,
    }
}

/// Cuts the message, lengthens it or takes another offset.
fn slip(random: &mut Random, message: &mut Vec<u8>, offset: &mut usize) {
    let length = message.len();
    match random.below(12) {
        0 => *offset = random.below(length + 3),
        1 => message.truncate(length - random.below(3)),
        2 => *offset = random.pick(&[0, 11, 12, 13, length - 1, length, 65535]),
        3 | 4 => {
            let more = random.below(5);
            message.extend(random.octets(more));
        }
        5 => message.truncate(random.below(length + 1)),
        6 if random.chance(1, 20) => message.resize(random.pick(&[9194, 9195, 17000]), 0),
        _ => {}
    }
}

impl Maker {
    /// Entry 54: a message with names and pointers, and an offset in it.
    pub fn name(&mut self) -> Call {
        let random = &mut self.random;
        let begin = first_offset(random);
        let mut message = random.octets(begin);
        let name = &self.pool[random.below(self.pool.len())];
        let mut offset = begin;
        match random.below(12) {
            0 => message.extend(name),
            1..=4 => {
                message.extend(name);
                let links = random.pick(&[0, 1, 2, 3, 15, 16, 16, 17, 17, 18]);
                offset = chain(random, &mut message, begin, links);
            }
            5 | 6 => offset = long_chain(random, &mut message),
            7 => {
                message.extend(name);
                offset = message.len();
                good_owner(random, &mut message, begin);
            }
            8 => {
                message.extend(short_labels(random));
                message.push(0);
                offset = message.len();
                bad_owner(random, &mut message);
            }
            9 | 10 => offset = few_or_many(random, &mut message),
            _ => message.extend(names::bad(random, name)),
        }
        slip(random, &mut message, &mut offset);
        Call::Name { offset: offset as u16, octets: message }
    }
}
