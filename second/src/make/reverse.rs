//! Names about in-addr.arpa and ip6.arpa for lookups: names of addresses, the two alone, and names that are nearly such.

use super::names;
use crate::random::Random;

const LONGEST: usize = 255;

/// What stands before the two last labels: nothing, one label, some, or as many as a name may have.
fn before(random: &mut Random, room: usize) -> Vec<Vec<u8>> {
    let count = match random.below(12) {
        0 | 1 => 0,
        2..=5 => 1,
        6..=8 => 4,
        9 => 32,
        10 => room / 2,
        _ => return vec![names::label(random), names::label(random)],
    };
    (0..count).map(|_| vec![random.pick(b"0123456789abcdefx")]).collect()
}

/// Spoils the end of a name of an address, which is its last two labels.
fn spoil(random: &mut Random, labels: &mut Vec<Vec<u8>>) {
    let last = labels.len() - 1;
    let (one, other) = (labels[last - 1].clone(), labels[last].clone());
    let spelt = |label: &[u8]| [&[label.len() as u8], label].concat();
    match random.below(12) {
        0 | 1 => labels[last - 1].insert(0, random.pick(b"x-.\x03\x07")),
        2 => labels[last].insert(0, random.pick(b"x\x04.")),
        3 => labels[random.pick(&[last - 1, last])].push(b'x'),
        4 | 5 => labels.push(names::label(random)),
        6 => labels.insert(last, names::label(random)),
        7 => drop(labels.remove(last - 1)),
        8 => labels.swap(last - 1, last),
        // The octets of a label with its length, within another label.
        9 => labels[last - 1] = [b"x", &spelt(&one)[..]].concat(),
        joined => {
            labels.truncate(last - 1);
            labels.push(if joined == 10 {
                [b"x", &spelt(&one)[..], &spelt(&other)].concat()
            } else {
                [&one[..], b".", &other].concat()
            });
        }
    }
}

/// A good name that ends in in-addr.arpa or ip6.arpa, in letters of any case, or nearly does; now and then one of few
/// or many labels.
pub fn name(random: &mut Random) -> Vec<u8> {
    if random.chance(1, 12) {
        let count = random.pick(&[2, 3, 126, 127]);
        return names::join(&vec![b"x".to_vec(); count]);
    }
    let first = random.pick(&[&b"in-addr"[..], b"ip6"]);
    let end = [first.to_vec(), b"arpa".to_vec()];
    let mut labels = before(random, LONGEST - names::join(&end).len());
    labels.extend(end);
    let whole = names::join(&labels);
    let name = match random.below(10) {
        0..=4 => whole.clone(),
        5..=8 => {
            spoil(random, &mut labels);
            names::join(&labels)
        }
        _ => names::near(random, &whole),
    };
    let name = if name.len() > LONGEST { whole } else { name };
    if random.chance(1, 2) {
        names::other_case(random, &name)
    } else {
        name
    }
}

#[cfg(test)]
mod tests {
    use super::*;
    use crate::faults;
    use crate::names::{is_reverse, read_plain};

    #[test]
    fn names_are_good_and_often_of_each_kind() {
        let mut random = Random::new(5);
        let names: Vec<_> = (0..3000).map(|_| name(&mut random)).collect();
        let read =
            |name: &Vec<u8>| read_plain(name, 0).filter(|(_, next)| *next == name.len()).map(|(labels, _)| labels);
        let labels: Vec<_> = names.iter().filter_map(read).collect();
        assert_eq!(labels.len(), names.len());
        let reverse = labels.iter().filter(|labels| is_reverse(labels, faults::NONE)).count();
        assert!((1000..2000).contains(&reverse));
        for fault in [
            faults::REVERSE_BY_OCTETS,
            faults::REVERSE_END_OF_LABEL,
            faults::REVERSE_EXACT_LETTERS,
            faults::REVERSE_ALONE,
            faults::REVERSE_IN_ADDR_ONLY,
            faults::REVERSE_LABEL_AFTER,
            faults::REVERSE_ARPA,
        ] {
            let differing = |labels: &&Vec<_>| is_reverse(labels, fault) != is_reverse(labels, faults::NONE);
            assert!(labels.iter().filter(differing).count() > 30);
        }
        assert!(names.iter().any(|name| name.len() > 253) && labels.iter().any(|labels| labels.len() == 1));
    }
}
