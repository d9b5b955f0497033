//! Domain names as lists of labels: reading with and without compression pointers, writing, and equality.

use crate::faults::{self, Fault};

/// The labels of a name without the root's empty one; the root is the empty list.
pub type Labels = Vec<Vec<u8>>;

const LONGEST_NAME: usize = 255;
const LONGEST_LABEL: usize = 63;
const MOST_POINTERS: usize = 16;
const HEADER: usize = 12;
/// The last label of a name that stands for an address, and those that may stand before it.
const ARPA: &[u8] = b"arpa";
const BEFORE_ARPA: [&[u8]; 2] = [b"in-addr", b"ip6"];

/// A name that was read from a message, where pointers may stand in it.
#[derive(Clone, PartialEq, Eq, Debug)]
pub struct Reading {
    pub labels: Labels,
    /// The offset after the name at the place where its reading began.
    pub next: usize,
    pub pointers: usize,
    /// How many of the labels stand after the last pointer.
    pub last_run: usize,
}

/// The number of octets of a name without pointers.
pub fn length(labels: &Labels) -> usize {
    labels.iter().map(|label| label.len() + 1).sum::<usize>() + 1
}

/// The octets of a name without pointers.
pub fn encode(labels: &Labels) -> Vec<u8> {
    let mut octets = Vec::with_capacity(length(labels));
    for label in labels {
        // A label that was read has at most 63 octets.
        octets.push(label.len() as u8);
        octets.extend(label);
    }
    octets.push(0);
    octets
}

/// Reads a name without pointers at `start`, and gives the offset after it.
pub fn read_plain(octets: &[u8], start: usize) -> Option<(Labels, usize)> {
    let mut labels = Labels::new();
    let mut at = start;
    while at < start + LONGEST_NAME {
        let size = usize::from(*octets.get(at)?);
        at += 1;
        if size == 0 {
            return Some((labels, at));
        }
        if size > LONGEST_LABEL {
            return None;
        }
        labels.push(octets.get(at..at + size)?.to_vec());
        at += size;
    }
    None
}

/// Reads a record's name at `start` of a message. A pointer's target is at least 12 and below the beginning of the
/// run of labels that it ends.
pub fn read_with_pointers(message: &[u8], start: usize, fault: Fault) -> Option<Reading> {
    let most_pointers = MOST_POINTERS + usize::from(fault == faults::POINTER_17);
    let longest = LONGEST_NAME + usize::from(fault == faults::NAME_OF_256);
    let lowest = if fault == faults::POINTER_INTO_HEADER { 0 } else { HEADER };
    let mut reading = Reading { labels: Labels::new(), next: 0, pointers: 0, last_run: 0 };
    let mut run = start;
    let mut expanded = 1;
    loop {
        let (labels, stop) = read_run(message, run)?;
        expanded += length(&labels) - 1;
        reading.last_run = labels.len();
        reading.labels.extend(labels);
        if expanded > longest {
            return None;
        }
        let Stop { at, target } = stop;
        if reading.pointers == 0 {
            reading.next = at;
        }
        let Some(target) = target else { return Some(reading) };
        let limit = if fault == faults::POINTER_INTO_RUN { at - 2 } else { run };
        if target < lowest || target >= limit || reading.pointers == most_pointers {
            return None;
        }
        reading.pointers += 1;
        run = target;
    }
}

/// The number of labels of a name that was read. Neither the root nor a pointer is one.
pub fn count(reading: &Reading, fault: Fault) -> usize {
    let Reading { labels, pointers, last_run, .. } = reading;
    match fault {
        faults::LABELS_BY_OCTETS => length(labels) - 1,
        faults::LABELS_AND_POINTERS => labels.len() + pointers,
        faults::LABELS_AND_ROOT => labels.len() + 1,
        faults::LABELS_OF_LAST_RUN => *last_run,
        faults::LABELS_126 => labels.len().min(126),
        _ => labels.len(),
    }
}

/// What ends a run of labels: the offset after it, and the target if a pointer ends it.
struct Stop {
    at: usize,
    target: Option<usize>,
}

fn read_run(message: &[u8], start: usize) -> Option<(Labels, Stop)> {
    let mut labels = Labels::new();
    let mut at = start;
    // No run of a good name is longer; the bound keeps a bad one from being read to the end of the message.
    while at <= start + LONGEST_NAME {
        let first = usize::from(*message.get(at)?);
        at += 1;
        match first {
            0 => return Some((labels, Stop { at, target: None })),
            1..=LONGEST_LABEL => {
                labels.push(message.get(at..at + first)?.to_vec());
                at += first;
            }
            192.. => {
                let target = (first - 192) * 256 + usize::from(*message.get(at)?);
                return Some((labels, Stop { at: at + 1, target: Some(target) }));
            }
            _ => return None,
        }
    }
    None
}

/// Two names are equal if their octets are after 65..90 are raised by 32.
pub fn equal(one: &Labels, other: &Labels, fault: Fault) -> bool {
    one.len() == other.len() && one.iter().zip(other).all(|(one, other)| equal_labels(one, other, fault))
}

fn equal_labels(one: &[u8], other: &[u8], fault: Fault) -> bool {
    one.len() == other.len() && one.iter().zip(other).all(|(one, other)| fold(*one, fault) == fold(*other, fault))
}

/// Whether a name is one or more labels and then in-addr.arpa or ip6.arpa, letter case apart.
pub fn is_reverse(labels: &Labels, fault: Fault) -> bool {
    let before = usize::from(fault != faults::REVERSE_ALONE);
    let mut pairs = labels.windows(2).skip(before);
    match fault {
        faults::REVERSE_BY_OCTETS => ends_in_octets(labels),
        faults::REVERSE_LABEL_AFTER => pairs.any(|pair| is_reverse_end(pair, fault)),
        _ => pairs.last().is_some_and(|pair| is_reverse_end(pair, fault)),
    }
}

fn is_reverse_end(pair: &[Vec<u8>], fault: Fault) -> bool {
    let known = BEFORE_ARPA.len() - usize::from(fault == faults::REVERSE_IN_ADDR_ONLY);
    let before = BEFORE_ARPA[..known].iter().any(|wanted| is_label(&pair[0], wanted, fault));
    (before || fault == faults::REVERSE_ARPA) && is_label(&pair[1], ARPA, fault)
}

fn is_label(label: &[u8], wanted: &[u8], fault: Fault) -> bool {
    match fault {
        faults::REVERSE_EXACT_LETTERS => label == wanted,
        faults::REVERSE_END_OF_LABEL => label.to_ascii_lowercase().ends_with(wanted),
        _ => equal_labels(label, wanted, fault),
    }
}

/// What a planted fault asks: whether the last octets of a name are those of in-addr.arpa or ip6.arpa.
fn ends_in_octets(labels: &Labels) -> bool {
    let octets = encode(labels).to_ascii_lowercase();
    BEFORE_ARPA.iter().any(|before| {
        let end = encode(&vec![before.to_vec(), ARPA.to_vec()]);
        octets.ends_with(&end) && octets.len() > end.len()
    })
}

fn fold(octet: u8, fault: Fault) -> u8 {
    match octet {
        90 if fault == faults::FOLD_NOT_Z => octet,
        65..=90 => octet + 32,
        64..=95 if fault == faults::FOLD_BIT_5 => octet | 32,
        _ => octet,
    }
}

#[cfg(test)]
mod tests {
    use super::*;

    #[test]
    fn only_letters_are_folded() {
        let name = |octet: u8| vec![vec![octet]];
        assert!(equal(&name(b'A'), &name(b'a'), faults::NONE) && equal(&name(b'Z'), &name(b'z'), faults::NONE));
        assert!(!equal(&name(b'@'), &name(b'`'), faults::NONE) && !equal(&name(b'['), &name(b'{'), faults::NONE));
    }

    fn reverse(dotted: &str, fault: Fault) -> bool {
        is_reverse(&dotted.split('.').map(|label| label.as_bytes().to_vec()).collect(), fault)
    }

    #[test]
    fn names_of_addresses_end_in_two_whole_labels() {
        for name in ["4.3.2.1.in-addr.arpa", "X.IP6.ARPA", "a.In-Addr.aRPA", "arpa.ip6.arpa", "\0.ip6.arpa"] {
            assert!(reverse(name, faults::NONE), "{name}");
        }
        let alone = ["in-addr.arpa", "ip6.arpa", "arpa", "a", "a.arpa", "xin-addr.arpa", "a.in-addr"];
        let within = ["a.xip6.arpa", "a.ip6x.arpa", "a.ip6.xarpa", "a.ip6.arp", "a.in\raddr.arpa", "a.in-addr.ip6"];
        let beside = ["a.ip6.arpa.b", "a.ip6.b.arpa", "a.arpa.ip6"];
        let octets = ["x\x03ip6\x04arpa", "a.x\x03ip6\x04arpa", "a.x\x03ip6.arpa", "a.\x03ip6\x04arpa"];
        for name in [&alone[..], &within, &beside, &octets].concat() {
            assert!(!reverse(name, faults::NONE), "{name:?}");
        }
    }

    #[test]
    fn faults_change_which_names_are_of_addresses() {
        assert!(
            reverse("a.x\x03IP6.arpa", faults::REVERSE_BY_OCTETS) && !reverse("ip6.arpa", faults::REVERSE_BY_OCTETS)
        );
        assert!(reverse("IP6.arpa", faults::REVERSE_ALONE) && !reverse("ip6", faults::REVERSE_ALONE));
        assert!(
            reverse("a.ip6.arpa.b", faults::REVERSE_LABEL_AFTER)
                && reverse("a.xIP6.arpa", faults::REVERSE_END_OF_LABEL)
        );
        assert!(reverse("a.b.arpa", faults::REVERSE_ARPA) && !reverse("a.b.c", faults::REVERSE_ARPA));
        assert!(
            !reverse("a.iP6.arpa", faults::REVERSE_EXACT_LETTERS)
                && !reverse("a.ip6.arpa", faults::REVERSE_IN_ADDR_ONLY)
        );
    }

    #[test]
    fn labels_and_names_have_their_limits() {
        let label = |size: u8| [vec![size], vec![b'a'; usize::from(size)]].concat();
        let name = |sizes: &[u8]| [sizes.iter().flat_map(|size| label(*size)).collect(), vec![0]].concat();
        assert!(read_plain(&name(&[63]), 0).is_some());
        assert!(read_plain(&name(&[64]), 0).is_none());
        assert_eq!(read_plain(&name(&[63, 63, 63, 61]), 0).map(|(_, next)| next), Some(255));
        assert!(read_plain(&name(&[63, 63, 63, 62]), 0).is_none());
        assert!(read_plain(&label(63), 0).is_none());
    }

    #[test]
    fn sixteen_pointers_are_followed() {
        // The root at 12, then pointers that each point at the one before.
        let mut message = vec![0; 13];
        for place in 0..17 {
            let target = if place == 0 { 12 } else { 11 + 2 * place };
            message.extend([0xC0, target]);
        }
        let read = |at| read_with_pointers(&message, at, faults::NONE);
        assert_eq!(read(13 + 2 * 15), Some(Reading { labels: Labels::new(), next: 45, pointers: 16, last_run: 0 }));
        assert_eq!(read(13 + 2 * 16), None);
    }

    #[test]
    fn pointers_go_back_but_not_into_the_header() {
        let message = b"\x00\x00\x00\x00\x00\x00\x00\x00\x00\x00\x00\x00\x01a\xc0\x0c\xc0\x0b\x01b\x00\x01a\xc0\x12";
        let read = |at| read_with_pointers(message, at, faults::NONE);
        assert_eq!(read(12), None);
        assert_eq!(read(16), None);
        let labels = vec![b"a".to_vec(), b"b".to_vec()];
        assert_eq!(read(21), Some(Reading { labels, next: 25, pointers: 1, last_run: 1 }));
        assert_eq!(read(25), None);
    }

    /// The number of labels of the name at an offset of a message; none if it cannot be read.
    fn count_at(message: &[u8], at: usize, fault: Fault) -> Option<usize> {
        read_with_pointers(message, at, faults::NONE).map(|reading| count(&reading, fault))
    }

    #[test]
    fn a_name_has_at_most_127_labels() {
        for (labels, octets) in [(0, 1), (1, 3), (126, 253), (127, 255)] {
            let name = [b"\x01x".repeat(labels), vec![0]].concat();
            assert_eq!(count_at(&name, 0, faults::NONE), Some(labels));
            assert_eq!(read_plain(&name, 0).map(|(read, next)| (read.len(), next)), Some((labels, octets)));
        }
        let name = [b"\x01x".repeat(128), vec![0]].concat();
        assert_eq!((name.len(), count_at(&name, 0, faults::NONE), read_plain(&name, 0)), (257, None, None));
    }

    #[test]
    fn labels_behind_a_pointer_count_on() {
        // 63 labels at 12, whose final zero is at 138. Then 64 labels, or 65, and a pointer to 12.
        let end = [vec![0; 12], b"\x01x".repeat(63), vec![0]].concat();
        let name = |labels| [&end[..], &b"\x01y".repeat(labels), &[0xC0, 12]].concat();
        assert_eq!(count_at(&name(64), 139, faults::NONE), Some(127));
        assert_eq!(count_at(&name(65), 139, faults::NONE), None);
        // The label c at 12; b and a pointer to it; two labels and a pointer to that; pointers to these and to the root.
        let message = b"\0\0\0\0\0\0\0\0\0\0\0\0\x01c\0\x01b\xc0\x0c\x02aa\x03aaa\xc0\x0f\xc0\x13\xc0\x0e";
        let counts = |fault| [12, 15, 19, 28, 30].map(|at| count_at(message, at, fault).unwrap_or(999));
        assert_eq!(counts(faults::NONE), [1, 2, 4, 4, 0]);
        assert_eq!(counts(faults::LABELS_BY_OCTETS), [2, 4, 11, 11, 0]);
        assert_eq!(counts(faults::LABELS_AND_POINTERS), [1, 3, 6, 7, 1]);
        assert_eq!(counts(faults::LABELS_AND_ROOT), [2, 3, 5, 5, 1]);
        assert_eq!(counts(faults::LABELS_OF_LAST_RUN), [1, 1, 1, 1, 0]);
        assert_eq!(count_at(&name(64), 139, faults::LABELS_126), Some(126));
    }
}
