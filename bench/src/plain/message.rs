//! Messages: header and question read, with the checks that calls of a host and of a lookup share; resource records
//! walked over; queries and replies written.

use super::names;
use super::refusal::Refusal;
use super::state::{Arrival, ROOM};
use super::table::Records;

const HEADER: usize = 12;
const LONGEST_DATAGRAM: usize = 9_194;
const TTL_SECONDS: u8 = 30;
/// Milliseconds that a lost name rests if no answer says how long.
const REST: u64 = 30_000;

pub const IN: u16 = 1;
/// The type that asks for all types, and the class that asks for all classes.
pub const ANY: u16 = 255;

pub struct Question<'a> {
    pub octets: &'a [u8],
    pub name: &'a [u8],
    pub qtype: u16,
    pub qclass: u16,
}

pub struct Message<'a> {
    pub id: u16,
    flags: u16,
    pub answers: u16,
    pub question: Question<'a>,
}

#[inline]
fn word(octets: &[u8], at: usize) -> u16 {
    u16::from_be_bytes([octets[at], octets[at + 1]])
}

impl<'a> Message<'a> {
    #[inline]
    pub fn is_response(&self) -> bool {
        self.flags & 0x8000 != 0
    }

    #[inline]
    pub fn is_conflict(&self) -> bool {
        self.flags & 0x0400 != 0
    }

    #[inline]
    pub fn is_tentative(&self) -> bool {
        self.flags & 0x0100 != 0
    }

    /// The offset after the question.
    #[inline]
    pub fn end(&self) -> usize {
        HEADER + self.question.octets.len()
    }

    /// How many milliseconds a name that this response has taken rests: by the TTL of its first answer.
    #[inline]
    pub fn rest(&self, octets: &[u8]) -> u64 {
        let first = if self.answers == 0 { None } else { read_record(octets, self.end()) };
        first.map_or(REST, |(ttl, _)| if ttl < 1 << 31 { u64::from(ttl) * 1_000 } else { 0 })
    }

    /// Reads a datagram that came to an interface of a family.
    #[inline]
    pub fn read(arrival: &Arrival<'a>, family: u8, responses_only: bool) -> Result<Message<'a>, Refusal> {
        let octets = arrival.octets;
        let header = octets.first_chunk::<HEADER>().ok_or(Refusal::Length)?;
        if octets.len() > LONGEST_DATAGRAM {
            return Err(Refusal::Length);
        }
        let flags = word(header, 2);
        let response = flags & 0x8000 != 0;
        if responses_only && !response {
            return Err(Refusal::Unmatched);
        }
        if arrival.from.address.family != family || arrival.to.family != family || arrival.to.is_group() == response {
            return Err(Refusal::Address);
        }
        if flags & 0x7800 != 0 {
            return Err(Refusal::Opcode);
        }
        if response && flags & 0x000F != 0 {
            return Err(Refusal::Rcode);
        }
        let answers = word(header, 6);
        if word(header, 4) != 1 || !response && (answers != 0 || word(header, 8) != 0) {
            return Err(Refusal::Counts);
        }
        let question = read_question(&octets[HEADER..]).ok_or(Refusal::Question)?;
        if !response && !matches!(question.qclass, IN | ANY) {
            return Err(Refusal::Class);
        }
        Ok(Message { id: word(header, 0), flags, answers, question })
    }
}

/// The question that `rest` begins with.
#[inline]
fn read_question(rest: &[u8]) -> Option<Question<'_>> {
    let length = names::length(rest)?;
    let octets = rest.get(..length + 4)?;
    let (name, fixed) = octets.split_at(length);
    Some(Question { octets, name, qtype: word(fixed, 0), qclass: word(fixed, 2) })
}

/// Whether so many resource records can be read from an offset on.
#[inline]
pub fn has_records(message: &[u8], start: usize, count: u16) -> bool {
    let mut at = start;
    for _ in 0..count {
        match read_record(message, at) {
            Some((_, end)) => at = end,
            None => return false,
        }
    }
    true
}

/// The resource record at an offset (owner name, ten fixed octets, data): its TTL, and the offset after it.
#[inline]
fn read_record(message: &[u8], at: usize) -> Option<(u32, usize)> {
    let owner = names::read_record_name(message, at)?;
    let fixed = message.get(owner.next..owner.next + 10)?;
    let ttl = u32::from_be_bytes([fixed[4], fixed[5], fixed[6], fixed[7]]);
    let end = owner.next + 10 + usize::from(word(fixed, 8));
    (end <= message.len()).then_some((ttl, end))
}

/// Writes a query for the question whose octets these are, and gives its length.
#[inline]
pub fn write_query(out: &mut [u8; ROOM], id: u16, question: &[u8]) -> usize {
    let [high, low] = id.to_be_bytes();
    out[..HEADER].copy_from_slice(&[high, low, 0, 0, 0, 1, 0, 0, 0, 0, 0, 0]);
    let len = HEADER + question.len();
    out[HEADER..len].copy_from_slice(question);
    len
}

/// Writes a query for a name and a type in class IN, and gives its length.
#[inline]
pub fn write_name_query(out: &mut [u8; ROOM], id: u16, name: &[u8], qtype: u16) -> usize {
    let end = write_query(out, id, name);
    let [high, low] = qtype.to_be_bytes();
    out[end..end + 4].copy_from_slice(&[high, low, 0, 1]);
    end + 4
}

/// Writes the reply to a query from the records of its name that are valid here, as many as fit, and gives its length.
#[inline]
pub fn write_reply(out: &mut [u8; ROOM], query: &Message, flags: u16, records: Records) -> usize {
    let question = &query.question;
    let mut used = query.end();
    let mut answers: u16 = 0;
    let mut flags = 0x8000 | flags;
    out[HEADER..used].copy_from_slice(question.octets);
    for (rtype, data) in records {
        if question.qtype != rtype && question.qtype != ANY {
            continue;
        }
        let Some(place) = out.get_mut(used..used + 12 + data.len()) else {
            flags |= 0x0200;
            break;
        };
        let [t, y] = rtype.to_be_bytes();
        let [high, low] = (data.len() as u16).to_be_bytes();
        place[..12].copy_from_slice(&[0xC0, HEADER as u8, t, y, 0, 1, 0, 0, 0, TTL_SECONDS, high, low]);
        place[12..].copy_from_slice(data);
        used += 12 + data.len();
        answers += 1;
    }
    let ([i, d], [f, g], [a, n]) = (query.id.to_be_bytes(), flags.to_be_bytes(), answers.to_be_bytes());
    out[..HEADER].copy_from_slice(&[i, d, f, g, 0, 1, a, n, 0, 0, 0, 0]);
    used
}
