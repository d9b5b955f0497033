//! Messages as values of their own: header, question and answer records, decoded from a datagram's octets and encoded
//! to such.

use crate::faults::{self, Fault};
use crate::names::{self, Labels};

pub const HEADER: usize = 12;
pub const CLASS_IN: u16 = 1;
pub const ANY: u16 = 255;

/// The flags' reserved bits are sent as zero and ignored on receipt, so they are not kept.
#[derive(Clone, PartialEq, Eq, Debug, Default)]
pub struct Header {
    pub id: u16,
    pub response: bool,
    pub opcode: u8,
    pub conflict: bool,
    pub truncated: bool,
    pub tentative: bool,
    pub rcode: u8,
    pub questions: u16,
    pub answers: u16,
    pub authorities: u16,
    pub additionals: u16,
}

#[derive(Clone, PartialEq, Eq, Debug)]
pub struct Question {
    pub name: Labels,
    pub qtype: u16,
    pub class: u16,
}

#[derive(Clone, PartialEq, Eq, Debug)]
pub struct Record {
    pub owner: Labels,
    pub rtype: u16,
    pub class: u16,
    pub ttl: u32,
    pub data: Vec<u8>,
}

#[derive(Clone, PartialEq, Eq, Debug, Default)]
pub struct Message {
    pub header: Header,
    /// None if it is not as the paper has it, or is cut short.
    pub question: Option<Question>,
    /// As many answer records as the header counts, but only those before the first that cannot be read.
    pub answers: Vec<Record>,
}

/// For how long a response claims its name: what its first answer record says, whoever owns it and whatever it is.
#[derive(Clone, Copy, PartialEq, Eq, Debug)]
pub enum Claim {
    /// There is no answer.
    NoAnswer,
    /// The first answer record cannot be read.
    BadAnswer,
    /// The TTL of the first answer record.
    Seconds(u32),
}

impl Header {
    fn decode(octets: &[u8; HEADER]) -> Header {
        let word = |at: usize| u16::from_be_bytes([octets[at], octets[at + 1]]);
        let flags = word(2);
        Header {
            id: word(0),
            response: flags & 0x8000 != 0,
            opcode: (flags >> 11 & 15) as u8,
            conflict: flags & 0x0400 != 0,
            truncated: flags & 0x0200 != 0,
            tentative: flags & 0x0100 != 0,
            rcode: (flags & 15) as u8,
            questions: word(4),
            answers: word(6),
            authorities: word(8),
            additionals: word(10),
        }
    }

    fn encode(&self) -> Vec<u8> {
        let flags = u16::from(self.response) << 15
            | u16::from(self.opcode) << 11
            | u16::from(self.conflict) << 10
            | u16::from(self.truncated) << 9
            | u16::from(self.tentative) << 8
            | u16::from(self.rcode);
        let words = [self.id, flags, self.questions, self.answers, self.authorities, self.additionals];
        words.iter().flat_map(|word| word.to_be_bytes()).collect()
    }
}

impl Question {
    /// The octets that it takes in a message, where it stands without pointers.
    pub fn length(&self) -> usize {
        names::length(&self.name) + 4
    }

    fn decode(octets: &[u8]) -> Option<Question> {
        let (name, next) = names::read_plain(octets, HEADER)?;
        let fixed = octets.get(next..)?.first_chunk::<4>()?;
        let qtype = u16::from_be_bytes([fixed[0], fixed[1]]);
        let class = u16::from_be_bytes([fixed[2], fixed[3]]);
        Some(Question { name, qtype, class })
    }

    fn encode(&self) -> Vec<u8> {
        let mut octets = names::encode(&self.name);
        octets.extend(self.qtype.to_be_bytes());
        octets.extend(self.class.to_be_bytes());
        octets
    }
}

impl Record {
    /// The octets that it takes in a reply, its owner being a pointer to the question's name.
    pub fn length_in_reply(&self) -> usize {
        12 + self.data.len()
    }

    /// A record at `at`, and the offset after it.
    fn decode(octets: &[u8], at: usize, fault: Fault) -> Option<(Record, usize)> {
        let owner = names::read_with_pointers(octets, at, fault)?;
        let rest = octets.get(owner.next..)?;
        let fixed = rest.first_chunk::<10>()?;
        let word = |at: usize| u16::from_be_bytes([fixed[at], fixed[at + 1]]);
        let mut end = 10 + usize::from(word(8));
        if fault == faults::DATA_UNREAD {
            end = end.min(rest.len());
        }
        let record = Record {
            owner: owner.labels,
            rtype: word(0),
            class: word(2),
            ttl: u32::from_be_bytes([fixed[4], fixed[5], fixed[6], fixed[7]]),
            data: rest.get(10..end)?.to_vec(),
        };
        Some((record, owner.next + end))
    }

    fn encode(&self, question: Option<&Question>) -> Vec<u8> {
        let mut octets = match question {
            Some(question) if question.name == self.owner => vec![0xC0, 0x0C],
            _ => names::encode(&self.owner),
        };
        octets.extend(self.rtype.to_be_bytes());
        octets.extend(self.class.to_be_bytes());
        octets.extend(self.ttl.to_be_bytes());
        // Data comes from a table's entry, which has at most 4,096 octets.
        octets.extend((self.data.len() as u16).to_be_bytes());
        octets.extend(&self.data);
        octets
    }
}

impl Message {
    /// A datagram below 12 octets has no header; it gives the empty message, and its length is refused.
    pub fn decode(octets: &[u8], fault: Fault) -> Message {
        let Some(header) = octets.first_chunk::<HEADER>() else { return Message::default() };
        let header = Header::decode(header);
        let question = Question::decode(octets);
        let begin = question.as_ref().map(|question| HEADER + question.length());
        let count = if fault == faults::STOP_UNCOUNTED { header.answers.max(1) } else { header.answers };
        let answers = begin.map_or(Vec::new(), |begin| decode_records(octets, begin, count, fault));
        Message { header, question, answers }
    }

    pub fn query(id: u16, question: Question) -> Message {
        let header = Header { id, questions: 1, ..Header::default() };
        Message { header, question: Some(question), answers: Vec::new() }
    }

    /// Whether one of the answer records that the header counts cannot be read.
    pub fn has_bad_answer(&self) -> bool {
        self.answers.len() < usize::from(self.header.answers)
    }

    pub fn claim(&self, fault: Fault) -> Claim {
        let record = match fault {
            faults::STOP_LAST_RECORD => self.answers.last(),
            faults::STOP_BAD_SECOND if self.has_bad_answer() => None,
            _ => self.answers.first(),
        };
        match record {
            Some(record) if fault == faults::STOP_OTHER_OWNER && !self.asks_for(&record.owner) => Claim::BadAnswer,
            Some(record) => Claim::Seconds(record.ttl),
            None if self.header.answers == 0 => Claim::NoAnswer,
            None => Claim::BadAnswer,
        }
    }

    fn asks_for(&self, name: &Labels) -> bool {
        self.question.as_ref().is_some_and(|question| names::equal(&question.name, name, faults::NONE))
    }

    pub fn encode(&self) -> Vec<u8> {
        let mut octets = self.header.encode();
        octets.extend(self.question.iter().flat_map(Question::encode));
        octets.extend(self.answers.iter().flat_map(|record| record.encode(self.question.as_ref())));
        octets
    }
}

/// So many records, up to the first that cannot be read.
fn decode_records(octets: &[u8], begin: usize, count: u16, fault: Fault) -> Vec<Record> {
    let mut at = begin;
    let next = |_| {
        let (record, next) = Record::decode(octets, at, fault)?;
        at = next;
        Some(record)
    };
    (0..count).map_while(next).collect()
}

#[cfg(test)]
mod tests {
    use super::*;

    /// A record of type 1 and class 1 with this owner and TTL, and four octets of data.
    fn record(owner: &[u8], ttl: u32) -> Vec<u8> {
        [owner, &[0, 1, 0, 1], &ttl.to_be_bytes(), &[0, 4, 1, 2, 3, 4]].concat()
    }

    /// What a response for the name `a` claims, with this ANCOUNT and these octets after its question.
    fn claim(count: u16, after: &[u8], fault: Fault) -> Claim {
        let header = [&[0, 9, 0x80, 0, 0, 1][..], &count.to_be_bytes(), &[0; 4]].concat();
        Message::decode(&[&header[..], b"\x01a\0\0\xff\0\x01", after].concat(), fault).claim(fault)
    }

    #[test]
    fn the_first_record_claims() {
        let (one, other) = (record(&[0xc0, 12], 7), record(b"\x01B\xc0\x0c", 60));
        let claims = |count, after: &[u8]| claim(count, after, faults::NONE);
        assert_eq!([0, 1, 2, 65535].map(|count| claims(count, &[])), {
            [Claim::NoAnswer, Claim::BadAnswer, Claim::BadAnswer, Claim::BadAnswer]
        });
        assert_eq!(claims(0, &one), Claim::NoAnswer);
        assert_eq!([1, 2, 65535].map(|count| claims(count, &one)), [Claim::Seconds(7); 3]);
        assert_eq!(claims(2, &[&one[..], &other].concat()), Claim::Seconds(7));
        assert_eq!(claims(2, &[&other[..], &one].concat()), Claim::Seconds(60));
        assert_eq!(claims(2, &[&one[..], &[0x40]].concat()), Claim::Seconds(7));
        assert_eq!(claims(1, &record(&[0], u32::MAX)), Claim::Seconds(u32::MAX));
    }

    #[test]
    fn a_bad_first_record_does_not_say() {
        let whole = record(&[0xc0, 12], 7);
        for length in 0..whole.len() {
            assert_eq!(claim(1, &whole[..length], faults::NONE), Claim::BadAnswer, "{length}");
        }
        // At 12 there is the question, and the record begins at 19.
        for owner in [&[0xc0, 19][..], &[0xc0, 20], &[0xc0, 11], &[64], &[0x80], &[1, b'b', 0xc0, 19]] {
            assert_eq!(claim(2, &[record(owner, 7), whole.clone()].concat(), faults::NONE), Claim::BadAnswer);
        }
    }

    #[test]
    fn faults_read_other_records() {
        let (one, other) = (record(&[0xc0, 12], 7), record(b"\x01B\xc0\x0c", 60));
        let both = [&one[..], &other].concat();
        assert_eq!(claim(2, &both, faults::STOP_LAST_RECORD), Claim::Seconds(60));
        assert_eq!(claim(3, &both, faults::STOP_BAD_SECOND), Claim::BadAnswer);
        assert_eq!(claim(0, &one, faults::STOP_UNCOUNTED), Claim::Seconds(7));
        assert_eq!(claim(0, &[], faults::STOP_UNCOUNTED), Claim::NoAnswer);
        assert_eq!(claim(1, &other, faults::STOP_OTHER_OWNER), Claim::BadAnswer);
        assert_eq!(claim(1, &record(b"\x01A\0", 7), faults::STOP_OTHER_OWNER), Claim::Seconds(7));
        assert_eq!(claim(1, &one[..one.len() - 1], faults::DATA_UNREAD), Claim::Seconds(7));
    }
}
