//! Domain names where they stand: reading with and without compression pointers, and equality.

const LONGEST: usize = 255;
const LONGEST_LABEL: usize = 63;
const MOST_POINTERS: usize = 16;
/// A pointer's least target: the octet after the header.
const LEAST_TARGET: usize = 12;
/// How the name of an address ends, from the length octet of a label on.
const REVERSE_ENDS: [&[u8]; 2] = [b"\x07in-addr\x04arpa\x00", b"\x03ip6\x04arpa\x00"];

/// The octets of the name without pointers that `octets` begins with.
#[inline]
pub fn length(octets: &[u8]) -> Option<usize> {
    let mut at = 0;
    loop {
        let size = usize::from(*octets.get(at)?);
        at += 1 + size;
        match size {
            0 => return Some(at),
            1..=LONGEST_LABEL if at < LONGEST => {}
            _ => return None,
        }
    }
}

/// Whether a name without pointers takes up all of `octets`.
#[inline]
pub fn is_whole(octets: &[u8]) -> bool {
    length(octets) == Some(octets.len())
}

/// Whether two names are equal, upper and lower case of ASCII letters alike.
#[inline]
pub fn is_same(one: &[u8], other: &[u8]) -> bool {
    one.eq_ignore_ascii_case(other)
}

/// Whether a whole name is one label and its final zero.
#[inline]
pub fn is_single(name: &[u8]) -> bool {
    name.first().is_some_and(|size| name.len() == usize::from(*size) + 2)
}

/// Whether a whole name is one or more labels and then `in-addr.arpa` or `ip6.arpa`.
#[inline]
pub fn is_reverse(name: &[u8]) -> bool {
    let mut rest = name;
    while let Some((size, labels)) = rest.split_first() {
        rest = labels.get(usize::from(*size)..).unwrap_or_default();
        if REVERSE_ENDS.iter().any(|end| is_same(rest, end)) {
            return true;
        }
    }
    false
}

/// A record's name: the offset after it, the octets of the expanded name, and the pointers followed.
#[derive(Clone, Copy, PartialEq, Eq, Debug)]
pub struct RecordName {
    pub next: usize,
    pub len: usize,
    pub pointers: usize,
}

/// Reads the name at an offset of a message, and hands over each of its labels with the length octet.
#[inline]
pub fn read_labels<'a>(message: &'a [u8], start: usize, mut label: impl FnMut(&'a [u8])) -> Option<RecordName> {
    let (mut at, mut run, mut next) = (start, start, None);
    let (mut len, mut pointers) = (0, 0);
    loop {
        let size = usize::from(*message.get(at)?);
        match size {
            0 => return Some(RecordName { next: next.unwrap_or(at + 1), len: len + 1, pointers }),
            1..=LONGEST_LABEL => {
                len += 1 + size;
                if len >= LONGEST {
                    return None;
                }
                label(message.get(at..=at + size)?);
                at += 1 + size;
            }
            0xC0.. => {
                let target = (size - 0xC0) << 8 | usize::from(*message.get(at + 1)?);
                if target < LEAST_TARGET || target >= run || pointers == MOST_POINTERS {
                    return None;
                }
                next = next.or(Some(at + 2));
                pointers += 1;
                (at, run) = (target, target);
            }
            _ => return None,
        }
    }
}

/// Reads the name at an offset of a message.
#[inline]
pub fn read_record_name(message: &[u8], start: usize) -> Option<RecordName> {
    read_labels(message, start, |_| {})
}
