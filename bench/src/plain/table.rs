//! The name table: its check, its names, and the records of a name.

use super::names;
use super::state::NAMES;

const LONGEST: usize = 4_096;
const MOST_RECORDS: usize = 24;
/// Octets of an entry before its body.
const HEAD: usize = 4;

const UNIQUE: u16 = 1;
const SHARED: u16 = 2;
const A: u16 = 3;
const AAAA: u16 = 4;
const PTR: u16 = 5;
/// A mask for the records after it: bit i stands for interface i.
const MASK: u16 = 6;
/// The mask with every interface.
const EVERYWHERE: u8 = 15;

/// Where a name's octets stand in the table; its records begin where they end.
#[derive(Clone, Copy, Default)]
struct Named {
    start: u16,
    end: u16,
    shared: bool,
}

/// The names of a good table.
#[derive(Clone, Copy, Default)]
pub struct Names {
    names: [Named; NAMES],
    count: usize,
}

impl Names {
    /// Reads a table; an error is the offset of the first entry that breaks a rule. Before, there are no names.
    #[inline]
    pub fn read(&mut self, table: &[u8]) -> Result<(), usize> {
        if table.len() > LONGEST {
            return Err(LONGEST);
        }
        let mut records = 0;
        let mut at = 0;
        while at < table.len() {
            let (kind, body) = entry(&table[at..]).ok_or(at)?;
            let end = at + HEAD + body.len();
            let good = match (kind, body.len()) {
                (UNIQUE | SHARED, _) => {
                    records = 0;
                    self.add(table, body, end, kind == SHARED)
                }
                (A, 4) | (AAAA, 16) => true,
                (PTR, _) => names::is_whole(body),
                (MASK, 1) => (1..=EVERYWHERE).contains(&body[0]),
                _ => false,
            };
            records += usize::from((A..=PTR).contains(&kind));
            if !good || self.count == 0 || records > MOST_RECORDS {
                return Err(at);
            }
            at = end;
        }
        Ok(())
    }

    #[inline]
    pub fn count(&self) -> usize {
        self.count
    }

    #[inline]
    pub fn octets<'a>(&self, table: &'a [u8], number: usize) -> &'a [u8] {
        let named = &self.names[number];
        &table[usize::from(named.start)..usize::from(named.end)]
    }

    #[inline]
    pub fn is_shared(&self, number: usize) -> bool {
        self.names[number].shared
    }

    #[inline]
    pub fn find(&self, table: &[u8], name: &[u8]) -> Option<usize> {
        (0..self.count.min(NAMES)).find(|&number| names::is_same(self.octets(table, number), name))
    }

    /// The records of a name that are valid on an interface, which is below 4.
    #[inline]
    pub fn records<'a>(&self, table: &'a [u8], number: usize, interface: usize) -> Records<'a> {
        let rest = &table[usize::from(self.names[number].end)..];
        Records { rest, bit: 1 << interface, valid: true }
    }

    /// Takes in the name whose body ends at `end`, unless there is no place for it, it is the root or no name, or it
    /// equals an earlier one.
    #[inline]
    fn add(&mut self, table: &[u8], body: &[u8], end: usize, shared: bool) -> bool {
        let fits = self.count < NAMES && body.len() > 1 && names::is_whole(body);
        if !fits || self.find(table, body).is_some() {
            return false;
        }
        self.names[self.count] = Named { start: (end - body.len()) as u16, end: end as u16, shared };
        self.count += 1;
        true
    }
}

/// Kind and body of the entry that `rest` begins with.
#[inline]
fn entry(rest: &[u8]) -> Option<(u16, &[u8])> {
    let head = rest.first_chunk::<HEAD>()?;
    let length = usize::from(u16::from_le_bytes([head[0], head[1]]));
    Some((u16::from_le_bytes([head[2], head[3]]), rest.get(HEAD..length)?))
}

/// The records of a name of a good table that are valid on one interface: type and data of each.
pub struct Records<'a> {
    rest: &'a [u8],
    /// The interface's bit in a mask.
    bit: u8,
    /// Whether the next record is valid there.
    valid: bool,
}

impl<'a> Iterator for Records<'a> {
    type Item = (u16, &'a [u8]);

    #[inline]
    fn next(&mut self) -> Option<(u16, &'a [u8])> {
        loop {
            let (kind, body) = entry(self.rest)?;
            let rtype = match kind {
                A => Some(1),
                AAAA => Some(28),
                PTR => Some(12),
                MASK => None,
                _ => return None,
            };
            self.rest = &self.rest[HEAD + body.len()..];
            match rtype {
                Some(rtype) if self.valid => return Some((rtype, body)),
                Some(_) => {}
                None => self.valid = body.first().is_some_and(|mask| mask & self.bit != 0),
            }
        }
    }
}
