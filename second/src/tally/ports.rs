//! What is worth counting about records that belong to other ports: the masks of tables, and the replies that leave
//! such records out.

use super::stops::chosen;
use super::Line;
use crate::calls::Call;
use crate::faults::NONE;
use crate::message::{Message, ANY, HEADER};
use crate::table::{Lent, Named};

pub const TABLES: &str = "of note: masks";
pub const TABLES_NOTES: &str =
    "mask-1 mask-2 mask-3 mask-4 mask-5 mask-6 mask-7 mask-8 mask-9 mask-10 mask-11 mask-12 mask-13 mask-14 mask-15 \
     before-records between-records two-in-a-row before-a-name at-the-end 24-records bad-0 bad-16 bad-17-to-31 bad-255 \
     no-octet two-octets before-any-name 25th-record";
pub const REPLIES: &str = "of note: ports";
pub const REPLIES_NOTES: &str =
    "fewer-on-0 fewer-on-1 fewer-on-2 fewer-on-3 all-valid some-valid none-valid none-of-any-type \
     before-the-first-mask after-a-masked-name after-a-second-mask after-two-in-a-row valid-after-others TC \
     TC-any-type no-TC-by-a-mask longest-but-for-others 512-octets 24-records";

/// Of the masks 1 to 15.
const MASKS: [&str; 15] = [
    "mask-1", "mask-2", "mask-3", "mask-4", "mask-5", "mask-6", "mask-7", "mask-8", "mask-9", "mask-10", "mask-11",
    "mask-12", "mask-13", "mask-14", "mask-15",
];
const FEWER: [&str; 4] = ["fewer-on-0", "fewer-on-1", "fewer-on-2", "fewer-on-3"];
const MASK: u16 = 6;
const LONGEST_REPLY: usize = 512;

/// The table that is lent.
#[derive(Default)]
pub struct Ports {
    lent: Lent,
}

impl Ports {
    /// Takes note of a call and its line; gives the row and the words to be counted.
    pub fn of_note(&mut self, line: &Line, call: Option<&Call>) -> (&'static str, Vec<&'static str>) {
        match call {
            Some(Call::Table(octets)) => {
                self.lent = Lent::decode(octets, NONE);
                (TABLES, in_table(&entries(octets), line.number("at")))
            }
            Some(Call::Datagram { prefix, octets, .. }) if line.what == "reply" => {
                (REPLIES, self.in_reply(line, prefix.interface, octets).unwrap_or_default())
            }
            _ => (TABLES, Vec::new()),
        }
    }

    fn in_reply(&self, line: &Line, interface: u8, query: &[u8]) -> Option<Vec<&'static str>> {
        let question = Message::decode(query, NONE).question?;
        let number = self.lent.number_of(&question.name, NONE)?;
        let named = &self.lent.names[number];
        let lengths = |here: bool| {
            let records = named.records(|run| run.on.contains(&interface) == here).into_iter();
            let asked = records.filter(|data| question.qtype == ANY || question.qtype == data.rtype);
            asked.map(|data| 12 + data.octets.len()).collect::<Vec<usize>>()
        };
        let (here, elsewhere) = (lengths(true), lengths(false));
        let octets = line.number("len").unwrap_or(0);
        let cut = super::octets_of(line.field("hex")).get(2).is_some_and(|flags| flags & 2 != 0);
        let fewer = !elsewhere.is_empty();
        let room = LONGEST_REPLY - HEADER - question.length();
        let any = question.qtype == ANY;
        let mut notes = chosen(&[
            (FEWER[usize::from(interface % 4)], fewer),
            ("all-valid", named.runs.len() > 1 && !here.is_empty() && !fewer),
            ("some-valid", fewer && !here.is_empty()),
            ("none-valid", fewer && here.is_empty()),
            ("none-of-any-type", fewer && here.is_empty() && any),
            ("TC", fewer && cut),
            ("TC-any-type", fewer && cut && any),
            ("no-TC-by-a-mask", fewer && !cut && here.iter().chain(&elsewhere).sum::<usize>() > room),
            ("longest-but-for-others", fewer && !cut && elsewhere.iter().any(|length| octets + length > LONGEST_REPLY)),
            ("512-octets", fewer && octets == LONGEST_REPLY),
            ("24-records", fewer && here.len() + elsewhere.len() == 24),
        ]);
        let before = number.checked_sub(1).map(|before| &self.lent.names[before]);
        notes.extend(in_runs(named, before, interface));
        Some(notes)
    }
}

/// What is worth counting about the runs of a name that is asked for on an interface, and the name before it.
fn in_runs(named: &Named, before: Option<&Named>, interface: u8) -> Vec<&'static str> {
    let valid = |place: usize| named.runs[place].on.contains(&interface);
    let filled = |place: &usize| !named.runs[*place].records.is_empty();
    let (first, last) = (filled(&0), named.runs.len() - 1);
    let off_before = before.and_then(|named| named.runs.last()).is_some_and(|run| !run.on.contains(&interface));
    let in_a_row = |place: &usize| !filled(&(place - 1)) && valid(place - 1) && !valid(*place);
    chosen(&[
        ("before-the-first-mask", first && last > 0 && !valid(1)),
        ("after-a-masked-name", first && off_before),
        ("after-a-second-mask", (2..=last).filter(filled).any(|place| valid(1) != valid(place))),
        ("after-two-in-a-row", (2..=last).filter(filled).any(|place| in_a_row(&place))),
        ("valid-after-others", (2..=last).filter(filled).any(|place| valid(place) && filled(&1) && !valid(1))),
    ])
}

/// Offset, kind and body of a table's entries, as far as they are whole.
fn entries(octets: &[u8]) -> Vec<(usize, u16, &[u8])> {
    let mut found = Vec::new();
    let mut at = 0;
    while let Some(head) = octets.get(at..).and_then(|rest| rest.first_chunk::<4>()) {
        let length = usize::from(u16::from_le_bytes([head[0], head[1]]));
        let Some(body) = octets.get(at + 4..at + length) else { break };
        found.push((at, u16::from_le_bytes([head[2], head[3]]), body));
        at += length;
    }
    found
}

/// What is worth counting about the masks of a table that is good, or bad at an offset.
fn in_table(entries: &[(usize, u16, &[u8])], bad_at: Option<usize>) -> Vec<&'static str> {
    match bad_at {
        Some(at) => in_bad_table(entries, at),
        None => in_good_table(entries),
    }
}

fn in_good_table(entries: &[(usize, u16, &[u8])]) -> Vec<&'static str> {
    let mut notes = Vec::new();
    let kind = |place: usize| entries.get(place).map_or(0, |(_, kind, _)| *kind);
    let (mut records, mut masks) = (0, 0);
    for (place, (_, this, body)) in entries.iter().enumerate() {
        match *this {
            1 | 2 => (records, masks) = (0, 0),
            MASK => masks += 1,
            _ => records += 1,
        }
        let is_mask = *this == MASK;
        if let ([mask], true) = (body, is_mask) {
            notes.extend(MASKS.get(usize::from(*mask).wrapping_sub(1)));
        }
        let before = if is_mask { kind(place.wrapping_sub(1)) } else { 0 };
        notes.extend(chosen(&[
            ("before-records", matches!(before, 1 | 2) && matches!(kind(place + 1), 3..=5)),
            ("between-records", matches!(before, 3..=5) && matches!(kind(place + 1), 3..=5)),
            ("two-in-a-row", before == MASK),
            ("before-a-name", is_mask && matches!(kind(place + 1), 1 | 2)),
            ("at-the-end", is_mask && place + 1 == entries.len()),
            ("24-records", !is_mask && records == 24 && masks > 0),
        ]));
    }
    notes
}

fn in_bad_table(entries: &[(usize, u16, &[u8])], at: usize) -> Vec<&'static str> {
    let Some(place) = entries.iter().position(|(offset, _, _)| *offset == at) else { return Vec::new() };
    let (_, kind, body) = entries[place];
    let of_name = entries[..place].iter().rev().take_while(|(_, kind, _)| *kind > 2);
    let (masks, records): (Vec<u16>, Vec<u16>) = of_name.map(|(_, kind, _)| *kind).partition(|kind| *kind == MASK);
    let is_mask = kind == MASK;
    chosen(&[
        ("bad-0", is_mask && body == [0]),
        ("bad-16", is_mask && body == [16]),
        ("bad-17-to-31", is_mask && matches!(body, [17..=31])),
        ("bad-255", is_mask && body == [255]),
        ("no-octet", is_mask && body.is_empty()),
        ("two-octets", is_mask && matches!(body, [1..=15, _])),
        ("before-any-name", is_mask && matches!(body, [1..=15])),
        ("25th-record", kind == 3 && body.len() == 4 && records.len() == 24 && !masks.is_empty()),
    ])
}

#[cfg(test)]
mod tests {
    use super::*;
    use crate::calls::{Address, Prefix};

    const NAME: &[u8] = b"\x07\0\x01\0\x01a\0";
    const OTHER: &[u8] = b"\x07\0\x02\0\x01b\0";
    const A: &[u8] = b"\x08\0\x03\0\x01\x02\x03\x04";

    fn on(mask: u8) -> [u8; 5] {
        [5, 0, 6, 0, mask]
    }

    /// What is of note about a table.
    fn lent(ports: &mut Ports, parts: &[&[u8]]) -> Vec<&'static str> {
        let octets = parts.concat();
        let bad_at = Lent::decode(&octets, NONE).bad_at;
        let line = bad_at.map_or("0 table good names=1".to_string(), |at| format!("0 table refused no=2 at={at}"));
        ports.of_note(&Line::read(&line), Some(&Call::Table(octets))).1
    }

    fn masks(parts: &[&[u8]]) -> Vec<&'static str> {
        lent(&mut Ports::default(), parts)
    }

    #[test]
    fn masks_are_looked_into() {
        assert!(masks(&[NAME, A]).is_empty());
        assert_eq!(masks(&[NAME, &on(1), A]), ["mask-1", "before-records"]);
        assert_eq!(masks(&[NAME, A, &on(15), A]), ["mask-15", "between-records"]);
        assert_eq!(masks(&[NAME, A, &on(2), &on(3)]), ["mask-2", "mask-3", "two-in-a-row", "at-the-end"]);
        assert_eq!(masks(&[NAME, A, &on(2), OTHER, A]), ["mask-2", "before-a-name"]);
        assert_eq!(masks(&[NAME, &on(8), &A.repeat(24)]), ["mask-8", "before-records", "24-records"]);
        assert_eq!(masks(&[NAME, &on(8), &A.repeat(25)]), ["25th-record"]);
        assert!(masks(&[NAME, &A.repeat(25)]).is_empty());
        assert_eq!(masks(&[&on(8), NAME]), ["before-any-name"]);
        let bad = [0, 16, 31, 255].map(|mask| masks(&[NAME, &on(mask)]));
        assert_eq!(bad, [["bad-0"], ["bad-16"], ["bad-17-to-31"], ["bad-255"]]);
        assert_eq!(masks(&[NAME, b"\x04\0\x06\0"]), ["no-octet"]);
        assert_eq!(masks(&[NAME, b"\x06\0\x06\0\x01\0"]), ["two-octets"]);
    }

    /// What is of note about the reply to a query for the name `a` on an interface.
    fn replied(parts: &[&[u8]], interface: u8, qtype: u8, flags: &str, length: usize) -> Vec<&'static str> {
        let mut ports = Ports::default();
        lent(&mut ports, parts);
        let address = Address { family: 4, octets: [0; 16] };
        let octets = [&[0, 9, 0, 0, 0, 1, 0, 0, 0, 0, 0, 0, 1, b'A', 0, 0][..], &[qtype, 0, 1]].concat();
        let prefix = Prefix { interface, time: 0, id: 0, room: 512 };
        let call = Call::Datagram { prefix, source: address, port: 1, destination: address, octets };
        let line = format!("0 datagram if={interface} t=0 id=0 reply to=4/00/1 len={length} hex=0009{flags}");
        ports.of_note(&Line::read(&line), Some(&call)).1
    }

    #[test]
    fn replies_on_a_port_are_looked_into() {
        let parts: [&[u8]; 3] = [NAME, &on(2), A];
        assert_eq!(replied(&parts, 0, 255, "8000", 19), ["fewer-on-0", "none-valid", "none-of-any-type"]);
        assert_eq!(replied(&parts, 0, 1, "8000", 19), ["fewer-on-0", "none-valid"]);
        assert_eq!(replied(&parts, 1, 1, "8000", 35), ["all-valid"]);
        assert!(replied(&parts, 0, 28, "8000", 19).is_empty());
        let parts: [&[u8]; 6] = [NAME, A, &on(2), A, &on(4), A];
        assert_eq!(
            replied(&parts, 2, 1, "8000", 51),
            ["fewer-on-2", "some-valid", "before-the-first-mask", "after-a-second-mask", "valid-after-others"]
        );
        let parts: [&[u8]; 4] = [NAME, &on(1), &on(2), A];
        assert_eq!(
            replied(&parts, 0, 1, "8000", 19),
            ["fewer-on-0", "none-valid", "after-a-second-mask", "after-two-in-a-row"]
        );
        let parts: [&[u8]; 5] = [OTHER, &on(2), A, NAME, A];
        assert_eq!(replied(&parts, 0, 1, "8000", 35), ["after-a-masked-name"]);
    }

    #[test]
    fn long_replies_on_a_port_are_looked_into() {
        let aaaa = [&[20, 0, 4, 0][..], &[1; 16]].concat();
        let parts: [&[u8]; 5] = [NAME, &on(1), &aaaa.repeat(17), &on(2), &aaaa];
        let longest = ["fewer-on-0", "some-valid", "no-TC-by-a-mask", "longest-but-for-others"];
        assert_eq!(replied(&parts, 0, 28, "8000", 495)[..4], longest);
        let parts: [&[u8]; 5] = [NAME, &on(1), &aaaa.repeat(18), &on(2), &A.repeat(6)];
        let cut = ["fewer-on-0", "some-valid", "TC", "TC-any-type", "24-records"];
        assert_eq!(replied(&parts, 0, 255, "8200", 495)[..5], cut);
        assert_eq!(replied(&parts, 1, 28, "8000", 19)[..3], ["fewer-on-1", "none-valid", "no-TC-by-a-mask"]);
    }
}
