//! The name table, decoded once when it is lent.

use crate::faults::{self, Fault};
use crate::names::{self, Labels};

const LONGEST_TABLE: usize = 4_096;
const MOST_NAMES: usize = 8;
const MOST_RECORDS: usize = 24;
const EVERYWHERE: [u8; 4] = [0, 1, 2, 3];

/// What a name has in the table: type and data.
#[derive(Clone, PartialEq, Eq, Debug)]
pub struct Data {
    pub rtype: u16,
    pub octets: Vec<u8>,
}

/// Records that follow one another without a kind 6 between them.
#[derive(Clone, PartialEq, Eq, Debug)]
pub struct Run {
    /// The interfaces on which these records are valid.
    pub on: Vec<u8>,
    pub records: Vec<Data>,
}

#[derive(Clone, PartialEq, Eq, Debug)]
pub struct Named {
    pub labels: Labels,
    pub shared: bool,
    /// The records before any kind 6, and then those after each.
    pub runs: Vec<Run>,
}

impl Named {
    /// The records of the runs that are wanted, in table order.
    pub fn records(&self, wanted: impl Fn(&Run) -> bool) -> Vec<&Data> {
        self.runs.iter().filter(|run| wanted(run)).flat_map(|run| &run.records).collect()
    }

    /// Whether another record would be one too many.
    fn is_full(&self, fault: Fault) -> bool {
        let masks = if fault == faults::MASK_COUNTED { self.runs.len() - 1 } else { 0 };
        let most = MOST_RECORDS + usize::from(fault == faults::TABLE_25_RECORDS);
        self.records(|_| true).len() + masks >= most
    }

    /// Begins a run that is valid on these interfaces.
    fn begin_run(&mut self, mut on: Vec<u8>, fault: Fault) {
        match (fault, &mut self.runs[..]) {
            (faults::MASK_EARLIER, [only]) => only.on = on.clone(),
            (faults::MASK_FIRST_STAYS, [_, first, ..]) => on = first.on.clone(),
            (faults::MASKS_JOINED, [_, .., last]) if last.records.is_empty() => on.extend(&last.on),
            _ => {}
        }
        self.runs.push(Run { on, records: Vec::new() });
    }
}

/// The table that is lent from one entry 31 to the next. A bad one has no names.
#[derive(Clone, PartialEq, Eq, Debug, Default)]
pub struct Lent {
    pub names: Vec<Named>,
    /// The offset of the first entry that breaks a rule.
    pub bad_at: Option<usize>,
}

impl Lent {
    pub fn decode(octets: &[u8], fault: Fault) -> Lent {
        match decode(octets, fault) {
            Ok(names) => Lent { names, bad_at: None },
            Err(at) => Lent { names: Vec::new(), bad_at: Some(at) },
        }
    }

    /// The number of the name that equals `labels`; there is at most one.
    pub fn number_of(&self, labels: &Labels, fault: Fault) -> Option<usize> {
        self.names.iter().position(|named| names::equal(&named.labels, labels, fault))
    }
}

fn decode(octets: &[u8], fault: Fault) -> Result<Vec<Named>, usize> {
    let longest = LONGEST_TABLE - usize::from(fault == faults::TABLE_4096_REFUSED);
    if octets.len() > longest && fault != faults::TABLE_LENGTH_LAST {
        return Err(LONGEST_TABLE);
    }
    let mut names = Vec::new();
    let mut at = 0;
    while at < octets.len() {
        let entry = split_entry(&octets[at..]).ok_or(at)?;
        let body_at = if fault == faults::TABLE_OFFSET_OF_BODY { at + 4 } else { at };
        take_entry(&mut names, &entry, fault).ok_or(body_at)?;
        at += entry.length;
    }
    if octets.len() > longest {
        return Err(LONGEST_TABLE);
    }
    Ok(names)
}

struct Entry<'a> {
    length: usize,
    kind: u16,
    body: &'a [u8],
}

fn split_entry(octets: &[u8]) -> Option<Entry<'_>> {
    let head = octets.first_chunk::<4>()?;
    let length = usize::from(u16::from_le_bytes([head[0], head[1]]));
    let kind = u16::from_le_bytes([head[2], head[3]]);
    let body = octets.get(4..length)?;
    Some(Entry { length, kind, body })
}

/// Adds an entry to the names before it, or gives none if it breaks a rule.
fn take_entry(names: &mut Vec<Named>, entry: &Entry, fault: Fault) -> Option<()> {
    match entry.kind {
        1 | 2 => {
            let labels = whole_name(entry.body).filter(|labels| !labels.is_empty())?;
            if names.len() == MOST_NAMES || names.iter().any(|named| taken(&named.labels, &labels, fault)) {
                return None;
            }
            let runs = vec![Run { on: first_run(names, fault), records: Vec::new() }];
            names.push(Named { labels, shared: entry.kind == 2, runs });
        }
        6 => {
            let on = interfaces(entry.body, fault)?;
            match names.last_mut() {
                Some(named) if fault == faults::MASK_COUNTED && named.is_full(fault) => return None,
                Some(named) => named.begin_run(on, fault),
                None if fault == faults::MASK_BEFORE_NAMES => {}
                None => return None,
            }
        }
        _ => {
            let record = record(entry, fault)?;
            let named = names.last_mut().filter(|named| !named.is_full(fault))?;
            named.runs.last_mut()?.records.push(record);
        }
    }
    Some(())
}

/// Where a name's records before any kind 6 are valid: everywhere.
fn first_run(names: &[Named], fault: Fault) -> Vec<u8> {
    let before = names.last().and_then(|named| named.runs.last());
    match before {
        Some(run) if fault == faults::MASK_NEXT_NAME => run.on.clone(),
        _ => EVERYWHERE.to_vec(),
    }
}

/// The interfaces of a kind 6, by its bits.
fn interfaces(body: &[u8], fault: Fault) -> Option<Vec<u8>> {
    let mask = match body {
        [mask] => *mask,
        [mask, ..] if fault == faults::MASK_2_OCTETS => *mask,
        _ => return None,
    };
    let good = match fault {
        faults::MASK_0 => mask <= 15,
        faults::MASK_16 => matches!(mask, 1..=16),
        faults::MASK_LOW_BITS => mask % 16 != 0,
        _ => matches!(mask, 1..=15),
    };
    let bit = |interface: &u8| match fault {
        faults::MASK_BIT_1 => interface + 1,
        faults::MASK_BIT_3 => 3 - interface,
        _ => *interface,
    };
    good.then(|| EVERYWHERE.into_iter().filter(|interface| mask & (1 << bit(interface)) != 0).collect())
}

fn taken(earlier: &Labels, labels: &Labels, fault: Fault) -> bool {
    if fault == faults::TABLE_EQUAL_NAMES {
        return earlier == labels;
    }
    names::equal(earlier, labels, fault)
}

/// The record of an entry: kinds 3 to 5 are A, AAAA and PTR.
fn record(entry: &Entry, fault: Fault) -> Option<Data> {
    let octets = entry.body.to_vec();
    match entry.kind {
        3 if octets.len() == 4 => Some(Data { rtype: 1, octets }),
        4 if octets.len() == 16 => Some(Data { rtype: 28, octets }),
        5 => {
            let target = whole_name(entry.body)?;
            if fault == faults::TABLE_NO_ROOT_TARGET && target.is_empty() {
                return None;
            }
            Some(Data { rtype: 12, octets: names::encode(&target) })
        }
        _ => None,
    }
}

/// A name that fills its body exactly.
fn whole_name(body: &[u8]) -> Option<Labels> {
    names::read_plain(body, 0).filter(|(_, next)| *next == body.len()).map(|(labels, _)| labels)
}

#[cfg(test)]
mod tests {
    use super::*;

    const S: [u8; 20] = *b"\x0c\x00\x01\x00\x06scale3\x00\x08\x00\x03\x00\xc0\x00\x02\x11";

    fn bad_at(octets: &[u8]) -> Option<usize> {
        Lent::decode(octets, faults::NONE).bad_at
    }

    #[test]
    fn examples_of_the_paper() {
        assert_eq!(bad_at(&S), None);
        assert_eq!(bad_at(&S[..19]), Some(12));
        assert_eq!(bad_at(&[S, S].concat()), Some(20));
    }

    #[test]
    fn edges() {
        assert_eq!(bad_at(&[]), None);
        assert_eq!(bad_at(&S[12..]), Some(0));
        assert_eq!(bad_at(&[0; 4_096]), Some(0));
        assert_eq!(bad_at(&[0; 4_097]), Some(4_096));
        assert_eq!(bad_at(&[&S[..], &[5, 0, 5, 0, 0]].concat()), None);
        assert_eq!(bad_at(&[&S[..], &[5, 0, 1, 0, 0]].concat()), Some(20));
        let records = |number: usize| [&S[..12], &S[12..].repeat(number)].concat();
        assert_eq!(bad_at(&records(24)), None);
        assert_eq!(bad_at(&records(25)), Some(12 + 24 * 8));
    }

    /// A kind 6 with one octet.
    fn on(mask: u8) -> [u8; 5] {
        [5, 0, 6, 0, mask]
    }

    #[test]
    fn masks_that_are_good_and_bad() {
        for mask in 0..=255 {
            let wanted = if (1..=15).contains(&mask) { None } else { Some(20) };
            assert_eq!(bad_at(&[&S[..], &on(mask)].concat()), wanted, "{mask}");
        }
        assert_eq!(bad_at(&[&S[..12], &[4, 0, 6, 0], &S[12..]].concat()), Some(12));
        assert_eq!(bad_at(&[&S[..12], &[6, 0, 6, 0, 1, 0], &S[12..]].concat()), Some(12));
        assert_eq!(bad_at(&[&S[..], &[5, 0, 6, 1, 1]].concat()), Some(20));
        assert_eq!(bad_at(&[&S[..], &[5, 0, 7, 0, 1]].concat()), Some(20));
        assert_eq!(bad_at(&on(1)), Some(0));
        assert_eq!(bad_at(&[&on(1), &S[..]].concat()), Some(0));
        assert_eq!(bad_at(&[&S[..], &on(1).repeat(100)].concat()), None);
    }

    #[test]
    fn a_mask_is_no_record() {
        let pairs = |number: usize| [&S[..12], &[&on(3), &S[12..]].concat().repeat(number)].concat();
        assert_eq!(bad_at(&pairs(24)), None);
        assert_eq!(bad_at(&[&pairs(24)[..], &on(8), &on(9)].concat()), None);
        assert_eq!(bad_at(&pairs(25)), Some(12 + 24 * 13 + 5));
    }

    /// How many records each name has on each interface.
    fn counts(octets: &[u8]) -> Vec<[usize; 4]> {
        let count = |named: &Named| EVERYWHERE.map(|interface| named.records(|run| run.on.contains(&interface)).len());
        Lent::decode(octets, faults::NONE).names.iter().map(count).collect()
    }

    #[test]
    fn a_mask_holds_up_to_the_next_or_the_next_name() {
        let (name, a) = S.split_at(12);
        let other = b"\x07\0\x02\0\x01a\0";
        assert_eq!(counts(&S), [[1; 4]]);
        assert_eq!(counts(&[name, &on(5), a, a].concat()), [[2, 0, 2, 0]]);
        assert_eq!(counts(&[name, a, &on(2), a, &on(12), a].concat()), [[1, 2, 2, 2]]);
        assert_eq!(counts(&[name, &on(1), &on(8), a].concat()), [[0, 0, 0, 1]]);
        assert_eq!(counts(&[name, a, &on(1)].concat()), [[1; 4]]);
        assert_eq!(counts(&[name, &on(1), a, other, a].concat()), [[1, 0, 0, 0], [1; 4]]);
        assert_eq!(counts(&[name, a, &on(1), other, a].concat()), [[1; 4], [1; 4]]);
    }
}
