//! A message in which names are spelled with as many pointers as wanted, each cut at random labels.

use super::pointers::pointer;
use crate::names::Labels;
use crate::random::Random;

/// Where the end of a name stands in a message: how many labels it has, and how many pointers are followed from there.
#[derive(Clone, Copy)]
pub struct Place {
    pub at: usize,
    pub labels: usize,
    pub pointers: usize,
}

/// A message in the making, and the places of the names in it.
#[derive(Clone)]
pub struct Sheet {
    pub octets: Vec<u8>,
    pub places: Vec<Place>,
}

impl Sheet {
    /// Names begin after the header, mostly right after it; with `room` so far on that targets need both octets, and
    /// once in a while all of their 14 bits.
    pub fn new(random: &mut Random, room: bool) -> Sheet {
        let begin = match random.below(40) {
            _ if random.chance(1, 300) => random.between(300, 16_383),
            0 => random.below(12),
            1..=8 => random.between(12, 40),
            9..=14 if room => random.between(240, 300),
            _ => 12,
        };
        let octets = if random.chance(1, 3) { vec![0; begin] } else { random.octets(begin) };
        Sheet { octets, places: Vec::new() }
    }

    /// Octets before a piece of a name, or labels that the piece is the end of, or the length of a label around it. A
    /// message that is long already gets none.
    fn fill(&mut self, random: &mut Random) {
        match random.below(8) {
            _ if self.octets.len() > 350 => {}
            0 => {
                let count = random.between(1, 3);
                self.octets.extend(random.octets(count));
            }
            1 => self.octets.extend(b"\x01a\x02bC"),
            2 => self.octets.push(random.pick(&[1, 5, 63])),
            _ => {}
        }
    }

    /// Writes a name piece by piece from its end on, with pointers between, and gives its offset. It follows so many
    /// pointers; with an `end` that stands already it has that one's pointers and at least one more.
    pub fn spell(&mut self, random: &mut Random, labels: &Labels, pointers: usize, end: Option<Place>) -> usize {
        let mut stop = labels.len() - end.map_or(0, |end| end.labels);
        let cuts = pointers.saturating_sub(end.map_or(0, |end| end.pointers + 1));
        let mut begins: Vec<usize> = (0..cuts).map(|_| random.between(0, stop)).collect();
        begins.push(0);
        begins.sort_by(|one, other| other.cmp(one));
        let mut rest = end;
        for begin in begins {
            self.fill(random);
            let pointers = rest.map_or(0, |rest| rest.pointers + 1);
            let piece = Place { at: self.octets.len(), labels: labels.len() - begin, pointers };
            for (number, label) in labels.iter().enumerate().take(stop).skip(begin) {
                self.places.push(Place { at: self.octets.len(), labels: labels.len() - number, pointers });
                self.octets.push(label.len() as u8);
                self.octets.extend(label);
            }
            self.places.push(Place { at: self.octets.len(), labels: labels.len() - stop, pointers });
            match rest {
                None => self.octets.push(0),
                Some(rest) => self.octets.extend(pointer(rest.at)),
            }
            (rest, stop) = (Some(piece), begin);
        }
        rest.map_or(0, |rest| rest.at)
    }

    /// A place where the last labels of `one`, which is written here, are the last ones of `other` too.
    pub fn shared(&self, random: &mut Random, one: &Labels, other: &Labels, pointers: usize) -> Option<Place> {
        let alike = |(one, other): &(&Vec<u8>, &Vec<u8>)| one.eq_ignore_ascii_case(other);
        let common = one.iter().rev().zip(other.iter().rev()).take_while(alike).count();
        let fits = |place: &&Place| place.labels <= common && place.pointers < pointers.max(1);
        let places: Vec<Place> = self.places.iter().filter(fits).copied().collect();
        (!places.is_empty()).then(|| random.pick(&places))
    }

    /// The offsets of the octets that are in labels.
    pub fn label_octets(&self) -> Vec<usize> {
        let sizes = self.places.iter().map(|place| (place.at, usize::from(self.octets[place.at])));
        sizes.filter(|(_, size)| *size < 64).flat_map(|(at, size)| at + 1..at + 1 + size).collect()
    }
}

#[cfg(test)]
mod tests {
    use super::*;
    use crate::faults;
    use crate::names::read_with_pointers;

    #[test]
    fn names_are_spelled_with_so_many_pointers() {
        let labels: Labels = [&b"ab"[..], b"C", b"d.e", b"f"].iter().map(|label| label.to_vec()).collect();
        for seed in 0..200 {
            let random = &mut Random::new(seed);
            let mut sheet = Sheet { octets: vec![0; 12], places: Vec::new() };
            let pointers = random.between(0, 16);
            let at = sheet.spell(random, &labels, pointers, None);
            let read = |sheet: &Sheet, at| read_with_pointers(&sheet.octets, at, faults::NONE);
            assert!(read(&sheet, at).is_some_and(|read| read.labels == labels && read.pointers == pointers));
            for place in &sheet.places {
                let end = labels[labels.len() - place.labels..].to_vec();
                assert!(read(&sheet, place.at).is_some_and(|r| r.labels == end && r.pointers == place.pointers));
            }
            let other = [vec![b"x".to_vec()], labels[2..].to_vec()].concat();
            let end = sheet.shared(random, &labels, &other, 16);
            let at = sheet.spell(random, &other, 16, end);
            assert!(read(&sheet, at).is_some_and(|read| read.labels == other && read.pointers == 16));
            let at = sheet.spell(random, &labels, 17, None);
            assert!(read(&sheet, at).is_none());
        }
    }
}
