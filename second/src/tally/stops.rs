//! What is worth counting about names that have stopped: the responses that they were lost to, and the starts that
//! follow.

use super::Line;
use crate::calls::{Call, Prefix};
use crate::checks::LATEST;
use crate::faults::{NONE, POINTER_17};
use crate::history::wait;
use crate::message::{Claim, Message, Question, HEADER};
use crate::names::read_with_pointers;
use std::collections::{BTreeMap, BTreeSet};

pub const LOST: &str = "of note: stops";
pub const LOST_NOTES: &str =
    "verifying defending no-answer uncounted-record no-record bad-owner 17-pointers cut-fixed cut-data ttl-0 ttl-1 \
     ttl-2 ttl-30 ttl-31 ttl-2^31-1 ttl-2^31 ttl-2^32-1 16-pointers other-owner two-ttls bad-second past-the-clock";
pub const AGAIN: &str = "of note: restarts";
pub const AGAIN_NOTES: &str =
    "too-soon too-soon-by-1 at-the-end after-it-by-1 same-millisecond shared last-time-too-soon gone-too-soon \
     before-the-clock";

const TTLS: [(u32, &str); 8] = [
    (0, "ttl-0"),
    (1, "ttl-1"),
    (2, "ttl-2"),
    (30, "ttl-30"),
    (31, "ttl-31"),
    ((1 << 31) - 1, "ttl-2^31-1"),
    (1 << 31, "ttl-2^31"),
    (u32::MAX, "ttl-2^32-1"),
];

/// Interface and number of a name.
type Place = (u8, usize);

/// When a name was lost, and until when it is left alone.
#[derive(Clone, Copy)]
struct Stop {
    time: u64,
    until: u64,
}

/// The names of a file that have stopped, and those that were defended since their start.
#[derive(Default)]
pub struct Stops {
    stopped: BTreeMap<Place, Stop>,
    defended: BTreeSet<Place>,
}

impl Stops {
    /// Takes note of a call and its line; gives the row and the words to be counted.
    pub fn of_note(&mut self, line: &Line, call: Option<&Call>) -> (&'static str, Vec<&'static str>) {
        match call {
            Some(Call::SetUp { .. }) => *self = Stops::default(),
            Some(Call::Start { prefix, name }) => return (AGAIN, self.start(line, prefix, usize::from(*name))),
            Some(Call::Datagram { prefix, octets, .. }) => return (LOST, self.datagram(line, prefix, octets)),
            _ => {}
        }
        (LOST, Vec::new())
    }

    fn start(&mut self, line: &Line, prefix: &Prefix, name: usize) -> Vec<&'static str> {
        let place = (prefix.interface, name);
        let Some(stop) = self.stopped.get(&place).copied() else { return Vec::new() };
        let (time, outcome) = (prefix.time, line.outcome());
        let (refused, accepted) = (outcome == "21", matches!(outcome, "query" | "shared"));
        if accepted {
            self.stopped.remove(&place);
            self.defended.remove(&place);
        }
        chosen(&[
            ("too-soon", refused && time + 1 < stop.until),
            ("too-soon-by-1", refused && time + 1 == stop.until),
            ("at-the-end", accepted && time == stop.until),
            ("after-it-by-1", accepted && time == stop.until + 1),
            ("same-millisecond", accepted && time == stop.time),
            ("shared", outcome == "shared"),
            ("last-time-too-soon", refused && time == LATEST),
            ("gone-too-soon", outcome == "12" && time < stop.until),
            ("before-the-clock", outcome == "4" && time < stop.until),
        ])
    }

    fn datagram(&mut self, line: &Line, prefix: &Prefix, octets: &[u8]) -> Vec<&'static str> {
        let Some(number) = line.number("name") else { return Vec::new() };
        let place = (prefix.interface, number);
        if line.what == "query" {
            self.defended.insert(place);
        }
        if line.what != "stopped" {
            return Vec::new();
        }
        let message = Message::decode(octets, NONE);
        let until = prefix.time + wait(message.claim(NONE), NONE);
        self.stopped.insert(place, Stop { time: prefix.time, until });
        let defended = self.defended.contains(&place);
        let mut notes = chosen(&[
            ("verifying", !defended),
            ("defending", defended),
            ("past-the-clock", until > LATEST),
            ("two-ttls", message.answers.windows(2).take(1).any(|two| two[0].ttl != two[1].ttl)),
            ("bad-second", message.answers.len() == 1 && message.header.answers > 1),
        ]);
        notes.extend(in_first_record(&message, octets));
        notes
    }
}

/// What is worth counting about the first answer record of a response.
fn in_first_record(message: &Message, octets: &[u8]) -> Vec<&'static str> {
    let asked = message.question.as_ref();
    let begin = HEADER + asked.map_or(0, Question::length);
    let owner = read_with_pointers(octets, begin, NONE);
    let rest = owner.as_ref().map_or(0, |owner| octets.len() - owner.next);
    let lacks = owner.as_ref().and_then(|owner| data_lacks(&octets[owner.next..]));
    match message.claim(NONE) {
        Claim::NoAnswer if octets.len() == begin => vec!["no-answer"],
        Claim::NoAnswer => chosen(&[("uncounted-record", lacks.is_some_and(|lacks| lacks <= 0))]),
        Claim::BadAnswer => chosen(&[
            ("no-record", octets.len() == begin),
            ("bad-owner", owner.is_none() && octets.len() > begin),
            ("17-pointers", owner.is_none() && read_with_pointers(octets, begin, POINTER_17).is_some()),
            ("cut-fixed", owner.is_some() && rest < 10),
            ("cut-data", lacks == Some(1)),
        ]),
        Claim::Seconds(ttl) => {
            let named = TTLS.iter().find(|(known, _)| *known == ttl).map(|(_, note)| *note);
            let others = chosen(&[
                ("16-pointers", owner.as_ref().is_some_and(|owner| owner.pointers == 16)),
                ("other-owner", owner.is_some_and(|owner| asked.is_some_and(|asked| asked.name != owner.labels))),
            ]);
            named.into_iter().chain(others).collect()
        }
    }
}

/// How many octets of its data a record lacks, from what follows its owner; below 0 if more octets follow.
fn data_lacks(rest: &[u8]) -> Option<isize> {
    let fixed = rest.first_chunk::<10>()?;
    Some(10 + isize::from(fixed[8]) * 256 + isize::from(fixed[9]) - rest.len() as isize)
}

/// The words of what is so.
pub fn chosen(named: &[(&'static str, bool)]) -> Vec<&'static str> {
    named.iter().filter(|(_, is)| *is).map(|(name, _)| *name).collect()
}

#[cfg(test)]
mod tests {
    use super::*;
    use crate::calls::Address;

    fn prefix(time: u64) -> Prefix {
        Prefix { interface: 1, time, id: 0, room: 512 }
    }

    /// What is of note about a response at 5 for the name `a`, with this ANCOUNT and these octets after its question.
    fn lost(stops: &mut Stops, count: u8, after: &[u8]) -> Vec<&'static str> {
        let octets = [&[0, 9, 0x80, 0, 0, 1, 0, count, 0, 0, 0, 0, 1, b'a', 0, 0, 255, 0, 1][..], after].concat();
        let address = Address { family: 4, octets: [0; 16] };
        let call = Call::Datagram { prefix: prefix(5), source: address, port: 1, destination: address, octets };
        stops.of_note(&Line::read("0 datagram if=1 t=5 id=0 stopped name=3"), Some(&call)).1
    }

    /// What is of note about a start of that name.
    fn started(stops: &mut Stops, time: u64, rest: &str) -> Vec<&'static str> {
        let call = Call::Start { prefix: prefix(time), name: 3 };
        stops.of_note(&Line::read(&format!("0 start if=1 t={time} id=0 {rest}")), Some(&call)).1
    }

    #[test]
    fn responses_that_stop_a_name_are_looked_into() {
        let notes = |count, after: &[u8]| lost(&mut Stops::default(), count, after)[1..].to_vec();
        let record = [0xc0, 12, 0, 1, 0, 1, 0, 0, 0, 30, 0, 1, 9];
        assert_eq!(notes(0, &[]), ["no-answer"]);
        assert_eq!(notes(0, &record), ["uncounted-record"]);
        assert!(notes(0, &record[..12]).is_empty());
        assert_eq!(notes(1, &record), ["ttl-30"]);
        assert_eq!(notes(2, &record), ["bad-second", "ttl-30"]);
        assert_eq!(notes(1, &record[..12]), ["cut-data"]);
        assert_eq!(notes(1, &record[..11]), ["cut-fixed"]);
        assert_eq!(notes(1, &[]), ["no-record"]);
        assert_eq!(notes(1, &[0xc0, 19]), ["bad-owner"]);
        assert_eq!(
            notes(2, &[&[0], &record[2..9], &[1], &record[10..], &record].concat()),
            ["two-ttls", "ttl-1", "other-owner"]
        );
    }

    #[test]
    fn starts_of_stopped_names_are_looked_into() {
        let mut stops = Stops::default();
        assert!(started(&mut stops, 5, "query to=4/00/1 len=1 hex=00 name=3").is_empty());
        assert_eq!(lost(&mut stops, 0, &[]), ["verifying", "no-answer"]);
        assert_eq!(started(&mut stops, 30_003, "refused no=21"), ["too-soon"]);
        assert_eq!(started(&mut stops, 30_004, "refused no=21"), ["too-soon-by-1"]);
        assert_eq!(started(&mut stops, 5, "refused no=12"), ["gone-too-soon"]);
        assert_eq!(started(&mut stops, 4, "refused no=4"), ["before-the-clock"]);
        assert_eq!(started(&mut stops, LATEST, "refused no=21"), ["last-time-too-soon"]);
        assert_eq!(started(&mut stops, 30_005, "shared name=3"), ["at-the-end", "shared"]);
        assert!(started(&mut stops, 30_005, "refused no=19").is_empty());
    }
}
