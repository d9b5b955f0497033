//! Masks for random name tables, which say on which interfaces the records after them are valid: of all values, before
//! and after each record, two in a row, and around records that are valid elsewhere alone.

use super::tables::{entry, Record, A, AAAA, MOST_RECORDS};
use crate::random::Random;

const MASK: u16 = 6;

fn of(mask: u8) -> Record {
    Record { kind: MASK, data: vec![mask] }
}

/// A good mask, often of one interface alone.
pub fn mask(random: &mut Random) -> Record {
    of(match random.below(3) {
        0 => 1 << random.below(4),
        _ => random.between(1, 15) as u8,
    })
}

/// A mask with the interface in it, or one without it.
fn mask_for(random: &mut Random, interface: usize, with: bool) -> Record {
    let wanted = |mask: &u8| (mask >> interface & 1 == 1) == with;
    let masks: Vec<u8> = (1..=15).filter(wanted).collect();
    of(random.pick(&masks))
}

/// How many of these are records and no masks.
pub fn count_records(records: &[Record]) -> usize {
    records.iter().filter(|record| record.kind != MASK).count()
}

/// Puts masks among a name's records in one way or the other.
pub fn put(random: &mut Random, records: &mut Vec<Record>) {
    if random.chance(1, 2) {
        sprinkle(random, records);
    } else {
        put_elsewhere(random, records);
    }
}

/// Puts masks at some places before, between and after the records, now and then two in a row.
pub fn sprinkle(random: &mut Random, records: &mut Vec<Record>) {
    for place in (0..=records.len()).rev() {
        if random.chance(1, 3) {
            for _ in 0..random.pick(&[1, 1, 1, 2]) {
                records.insert(place, mask(random));
            }
        }
    }
}

/// Leaves what is valid on one interface as it is, and puts records between that are valid elsewhere alone, as many as
/// a name may have.
pub fn put_elsewhere(random: &mut Random, records: &mut Vec<Record>) {
    let interface = random.below(4);
    records.retain(|record| record.kind != MASK);
    for _ in 0..random.pick(&[1, 1, 2, 3]) {
        let room = MOST_RECORDS.saturating_sub(count_records(records));
        let others: Vec<Record> = (0..random.between(1, 3).min(room)).map(|_| another(random, records)).collect();
        // Not between the others that are there already: before those there is a mask without the interface.
        let places: Vec<usize> = (0..=records.len()).filter(|place| is_on(&records[..*place], interface)).collect();
        let place = random.pick(&places);
        let mut run = vec![mask_for(random, interface, false)];
        run.extend(others);
        if place < records.len() || random.chance(1, 2) {
            run.push(mask_for(random, interface, true));
        }
        records.splice(place..place, run);
    }
}

/// Whether a record after these is valid on the interface.
fn is_on(records: &[Record], interface: usize) -> bool {
    let last = records.iter().rev().find(|record| record.kind == MASK);
    last.is_none_or(|mask| mask.data[0] >> interface & 1 == 1)
}

/// A record like one of those that are there, but for an address.
fn another(random: &mut Random, records: &[Record]) -> Record {
    let records: Vec<&Record> = records.iter().filter(|record| record.kind != MASK).collect();
    let mut like = match records.is_empty() {
        true => Record { kind: A, data: vec![0; 4] },
        false => random.pick(&records).clone(),
    };
    if like.kind == A || like.kind == AAAA {
        like.data = random.octets(like.data.len());
    }
    like
}

/// Changes a mask, takes it away, or puts some if there is none.
pub fn change(random: &mut Random, records: &mut Vec<Record>) {
    let places: Vec<usize> = (0..records.len()).filter(|&place| records[place].kind == MASK).collect();
    if places.is_empty() {
        return put(random, records);
    }
    let place = random.pick(&places);
    match random.below(4) {
        0 => records.retain(|record| record.kind != MASK),
        1 => drop(records.remove(place)),
        _ => records[place] = mask(random),
    }
}

/// An entry of a mask that is 0 or above 15, or that has not one octet.
pub fn bad(random: &mut Random) -> Vec<u8> {
    let good = mask(random).data[0];
    match random.below(6) {
        0 => entry(MASK, &[]),
        1 => entry(MASK, &[good, random.pick(&[0, 1, 15, 255])]),
        _ => entry(MASK, &[random.pick(&[0, 0, 16, 16, 16 + good, 32, 64, 128, 240, 255])]),
    }
}

#[cfg(test)]
mod tests {
    use super::*;

    fn addresses(count: usize) -> Vec<Record> {
        (0..count).map(|number| Record { kind: A, data: vec![number as u8; 4] }).collect()
    }

    /// The records that are valid on an interface.
    fn valid(records: &[Record], interface: usize) -> Vec<Vec<u8>> {
        let places = (0..records.len()).filter(|&place| records[place].kind != MASK);
        places.filter(|&place| is_on(&records[..place], interface)).map(|place| records[place].data.clone()).collect()
    }

    #[test]
    fn masks_of_all_values_are_made() {
        let mut random = Random::new(8);
        let mut seen: Vec<u8> = (0..500).map(|_| mask(&mut random).data[0]).collect();
        seen.sort();
        seen.dedup();
        assert_eq!(seen, (1..=15).collect::<Vec<u8>>());
    }

    #[test]
    fn one_interface_keeps_its_records() {
        let mut random = Random::new(9);
        let mut others = 0;
        for count in (0..=24).cycle().take(500) {
            let mut records = addresses(count);
            put_elsewhere(&mut random, &mut records);
            let kept: Vec<Vec<u8>> = addresses(count).into_iter().map(|record| record.data).collect();
            assert!((0..4).any(|interface| valid(&records, interface) == kept));
            assert!(count_records(&records) <= MOST_RECORDS);
            others += count_records(&records) - count;
        }
        assert!(others > 500);
    }

    #[test]
    fn masks_take_no_record_away() {
        let mut random = Random::new(10);
        for count in 0..=24 {
            let mut records = addresses(count);
            sprinkle(&mut random, &mut records);
            change(&mut random, &mut records);
            records.retain(|record| record.kind != MASK);
            assert!(records.len() >= count);
        }
    }
}
