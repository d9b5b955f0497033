//! How often each outcome of each call was reached, from the lines that both programs printed. Each outcome and each
//! refusal that the rules provide for must be reached, and no other.

mod ports;
mod stops;

use crate::calls::{read, Call};
use crate::faults;
use crate::names::{is_reverse, read_plain};
use crate::rows::Rows;
use ports::Ports;
use stops::Stops;

/// Calls with the outcomes and refusal numbers that the rules' orders of checks give. Datagrams go by their QR bit.
const EXPECTED: &[(&str, &str)] = &[
    ("table", "good 2"),
    ("set-up", "ready 2 4 20"),
    ("start", "shared query 1 2 3 4 12 19 21"),
    ("datagram, a query", "reply query 1 2 3 4 5 6 7 9 10 11 12 13 14"),
    ("datagram, a response", "stopped kept 1 2 3 4 5 6 7 8 9 10 15 16"),
    ("tick", "query unique quiet 1 2 3 4"),
    ("settings", "taken"),
    ("ask", "query 1 3 4 10 22"),
    ("answer, a query", "1 3 4 5 15"),
    ("answer, a response", "part found 1 3 4 5 6 7 8 9 10 15 16 17 18"),
    ("ask-tick", "query found none quiet 1 4"),
    ("name", "read bad"),
    ("end", "cut short kind size long"),
    ("of note: replies", "TC T C empty 24-answers 512-octets 511-octets class-255 any-type any-type-TC"),
    (
        "of note: asks",
        "one-unpermitted several-permitted permission-2 permission-255 127-permitted reverse-unpermitted reverse-upper \
         reverse-124 two-refused 127-refused in-addr.arpa-refused ip6.arpa-refused octets-refused label-end-refused \
         label-after-refused only-arpa-refused several-bad",
    ),
    (
        "of note: others",
        "4096-octet-table 4096-refused 8-names no-names 9194-octets last-time class-255-defence found-0 found-many \
         next-part same-tick 1-pointer 16-pointers 255-octet-name 0-labels 0-labels-16-pointers 127-labels \
         127-labels-16-pointers",
    ),
    (stops::LOST, stops::LOST_NOTES),
    (stops::AGAIN, stops::AGAIN_NOTES),
    (ports::TABLES, ports::TABLES_NOTES),
    (ports::REPLIES, ports::REPLIES_NOTES),
];

const LAST_TIME: &str = "281474976710655";

pub struct Tally {
    rows: Rows,
}

impl Default for Tally {
    fn default() -> Tally {
        Tally { rows: Rows::new(EXPECTED) }
    }
}

/// A printed line: the call's word, the outcome's word, and its fields.
struct Line<'a> {
    kind: &'a str,
    what: &'a str,
    fields: Vec<(&'a str, &'a str)>,
}

impl<'a> Line<'a> {
    fn read(text: &'a str) -> Line<'a> {
        let mut line = Line { kind: "", what: "", fields: Vec::new() };
        for (place, word) in text.split(' ').enumerate() {
            match word.split_once('=') {
                Some(field) => line.fields.push(field),
                None if place == 0 && word == "end" => line.kind = word,
                None if place == 1 => line.kind = word,
                None if place > 1 => line.what = word,
                None => {}
            }
        }
        line
    }

    fn field(&self, name: &str) -> &'a str {
        self.fields.iter().find(|(field, _)| *field == name).map_or("", |(_, value)| value)
    }

    fn number(&self, name: &str) -> Option<usize> {
        self.field(name).parse().ok()
    }

    /// The word or refusal number that is counted.
    fn outcome(&self) -> &'a str {
        match (self.kind, self.what) {
            (_, "refused") => self.field("no"),
            ("end", _) => self.field("why"),
            ("settings", "") => "taken",
            ("name", "") => "read",
            (_, what) => what,
        }
    }
}

fn row(line: &Line, call: Option<&Call>) -> &'static str {
    let response = match call {
        Some(Call::Datagram { octets, .. } | Call::Answer { octets, .. }) => {
            octets.get(2).is_some_and(|octet| octet & 0x80 != 0)
        }
        _ => false,
    };
    match (line.kind, response) {
        ("datagram", false) => "datagram, a query",
        ("datagram", true) => "datagram, a response",
        ("answer", false) => "answer, a query",
        ("answer", true) => "answer, a response",
        (kind, _) => EXPECTED.iter().map(|(row, _)| *row).find(|row| *row == kind).unwrap_or("unknown"),
    }
}

fn octets_of(hex: &str) -> Vec<u8> {
    let digits = (0..hex.len() / 2).map_while(|place| hex.get(place * 2..place * 2 + 2));
    digits.map_while(|pair| u8::from_str_radix(pair, 16).ok()).collect()
}

/// Type and class of a message's question, whose name has no pointers.
fn asked(octets: &[u8]) -> Option<(u16, u16)> {
    let mut at = 12;
    while *octets.get(at)? != 0 {
        at += 1 + usize::from(octets[at]);
    }
    let fixed = octets.get(at + 1..at + 5)?;
    Some((u16::from_be_bytes([fixed[0], fixed[1]]), u16::from_be_bytes([fixed[2], fixed[3]])))
}

/// What is worth counting in a reply's octets.
fn of_note_in_reply(line: &Line) -> Vec<&'static str> {
    let octets = octets_of(line.field("hex"));
    let word = |at: usize| octets.get(at..at + 2).map_or(0, |two| u16::from_be_bytes([two[0], two[1]]));
    let (flags, answers) = (word(2), word(6));
    let (qtype, class) = asked(&octets).unwrap_or((0, 0));
    let named = [
        ("TC", flags & 0x0200 != 0),
        ("T", flags & 0x0100 != 0),
        ("C", flags & 0x0400 != 0),
        ("empty", answers == 0),
        ("24-answers", answers == 24),
        ("512-octets", octets.len() == 512),
        ("511-octets", octets.len() == 511),
        ("class-255", class == 255),
        ("any-type", qtype == 255 && answers > 0),
        ("any-type-TC", qtype == 255 && flags & 0x0200 != 0),
    ];
    named.iter().filter(|(_, is)| *is).map(|(name, _)| *name).collect()
}

/// What is worth counting in the start of a lookup: its permission, how many labels its name has, and how it ends.
fn of_note_in_ask(line: &Line, call: Option<&Call>) -> Vec<&'static str> {
    let Some(Call::Ask { permission, name, .. }) = call else { return Vec::new() };
    let labels = read_plain(name, 0).map(|(labels, _)| labels).unwrap_or_default();
    let (count, ends) = (labels.len(), |fault| is_reverse(&labels, fault));
    let (reverse, unpermitted, refused) = (ends(faults::NONE), *permission == 0, line.outcome() == "22");
    let several = count > 1 && !reverse;
    let permitted = |value: u8| line.what == "query" && several && *permission == value;
    let passed = line.what == "query" && reverse && unpermitted;
    let named = [
        ("one-unpermitted", line.what == "query" && unpermitted && count == 1),
        ("several-permitted", permitted(1)),
        ("permission-2", permitted(2)),
        ("permission-255", permitted(255)),
        ("127-permitted", permitted(1) && count == 127),
        ("reverse-unpermitted", passed),
        ("reverse-upper", passed && labels.last().is_some_and(|label| label == b"ARPA")),
        ("reverse-124", passed && count == 124),
        ("two-refused", refused && count == 2),
        ("127-refused", refused && count == 127),
        ("in-addr.arpa-refused", refused && name.eq_ignore_ascii_case(b"\x07in-addr\x04arpa\0")),
        ("ip6.arpa-refused", refused && name.eq_ignore_ascii_case(b"\x03ip6\x04arpa\0")),
        ("octets-refused", refused && ends(faults::REVERSE_BY_OCTETS)),
        ("label-end-refused", refused && ends(faults::REVERSE_END_OF_LABEL)),
        ("label-after-refused", refused && ends(faults::REVERSE_LABEL_AFTER)),
        ("only-arpa-refused", refused && ends(faults::REVERSE_ARPA)),
        ("several-bad", line.outcome() == "10" && several && unpermitted),
    ];
    named.iter().filter(|(_, is)| *is).map(|(name, _)| *name).collect()
}

fn of_note(line: &Line, call: Option<&Call>) -> Vec<&'static str> {
    let accepted = line.what != "refused" && line.what != "bad";
    let lent = match call {
        Some(Call::Table(octets) | Call::Datagram { octets, .. } | Call::Answer { octets, .. }) => octets.len(),
        _ => 0,
    };
    let many = line.number("an").is_some_and(|count| count > 1);
    let counted = |labels, pointers| line.field("labels") == labels && line.field("pointers") == pointers;
    let named = [
        ("4096-octet-table", line.kind == "table" && accepted && lent == 4096),
        ("4096-refused", line.kind == "table" && line.field("at") == "4096"),
        ("8-names", line.kind == "table" && line.field("names") == "8"),
        ("no-names", line.kind == "table" && line.field("names") == "0"),
        ("9194-octets", accepted && line.kind != "table" && lent == 9194),
        ("last-time", accepted && line.field("t") == LAST_TIME),
        ("class-255-defence", line.kind == "datagram" && line.what == "query" && line.field("hex").ends_with("00ff")),
        ("found-0", line.what == "found" && line.field("an") == "0"),
        ("found-many", line.what == "found" && many),
        ("1-pointer", line.field("pointers") == "1"),
        ("16-pointers", line.field("pointers") == "16"),
        ("255-octet-name", line.kind == "name" && line.field("name").len() == 510),
        ("0-labels", counted("0", "0")),
        ("0-labels-16-pointers", counted("0", "16")),
        ("127-labels", counted("127", "0")),
        ("127-labels-16-pointers", counted("127", "16")),
    ];
    named.iter().filter(|(_, is)| *is).map(|(name, _)| *name).collect()
}

/// What two lines show together: two names served at one time, or two parts for one lookup.
fn of_note_in_pair(before: &Line, line: &Line) -> Option<&'static str> {
    let same = |name| before.field(name) == line.field(name);
    let kind = before.kind == line.kind;
    match line.kind {
        "tick" if kind && same("if") && same("t") && !line.field("name").is_empty() && !same("name") => {
            (!before.field("name").is_empty()).then_some("same-tick")
        }
        "answer" if line.what == "part" && before.what == "part" => Some("next-part"),
        _ => None,
    }
}

impl Tally {
    /// Counts the lines that were printed for a file.
    pub fn add(&mut self, file: &[u8], text: &str) {
        let (calls, _) = read(file);
        let mut before: Option<Line> = None;
        let (mut stops, mut ports) = (Stops::default(), Ports::default());
        for (number, line) in text.lines().enumerate() {
            let line = Line::read(line);
            let call = calls.get(number);
            self.rows.count(row(&line, call), line.outcome());
            if line.what == "reply" {
                of_note_in_reply(&line).into_iter().for_each(|note| self.rows.count("of note: replies", note));
            }
            of_note_in_ask(&line, call).into_iter().for_each(|note| self.rows.count("of note: asks", note));
            of_note(&line, call).into_iter().for_each(|note| self.rows.count("of note: others", note));
            for (row, notes) in [stops.of_note(&line, call), ports.of_note(&line, call)] {
                notes.into_iter().for_each(|note| self.rows.count(row, note));
            }
            if let Some(note) = before.and_then(|before| of_note_in_pair(&before, &line)) {
                self.rows.count("of note: others", note);
            }
            before = Some(line);
        }
    }

    pub fn merge(&mut self, other: Tally) {
        self.rows.merge(other.rows);
    }

    /// One line for each kind of call, with its outcomes and their counts.
    pub fn table(&self) -> String {
        self.rows.table()
    }

    /// What was expected and not reached, and what was reached and not expected.
    pub fn faults(&self) -> Vec<String> {
        self.rows.faults()
    }
}

#[cfg(test)]
mod tests {
    use super::*;
    use crate::calls::Prefix;

    #[test]
    fn lines_are_counted() {
        let prefix = Prefix { interface: 0, time: 5, id: 6, room: 512 };
        let file = [Call::Tick { prefix }.encode(), Call::Table(Vec::new()).encode(), vec![1]].concat();
        let mut tally = Tally::default();
        tally.add(&file, "0 tick if=0 t=5 id=6 refused no=3\n1 table good names=0\nend at=23 why=cut\n");
        assert_eq!(tally.rows.of("tick", "3"), 1);
        assert_eq!(tally.rows.of("table", "good"), 1);
        assert_eq!(tally.rows.of("of note: others", "no-names"), 1);
        assert_eq!(tally.rows.of("end", "cut"), 1);
        assert!(tally.faults().iter().all(|fault| fault.starts_with("never reached: ")));
        tally.add(&file, "0 tick if=0 t=5 id=6 refused no=5\n");
        assert!(tally.faults().contains(&"not expected: tick: 5 (1 times)".to_string()));
    }

    #[test]
    fn numbers_of_labels_are_of_note() {
        let notes = |labels, pointers| {
            let line = format!("0 name next=9 pointers={pointers} labels={labels} name=00");
            of_note(&Line::read(&line), None)
        };
        assert_eq!(notes(0, 0), ["0-labels"]);
        assert_eq!(notes(0, 16), ["16-pointers", "0-labels-16-pointers"]);
        assert_eq!(notes(127, 0), ["127-labels"]);
        assert_eq!(notes(127, 16), ["16-pointers", "127-labels-16-pointers"]);
        assert!(notes(126, 0).is_empty() && notes(127, 2).is_empty());
        assert!(of_note(&Line::read("0 name bad"), None).is_empty());
    }

    #[test]
    fn asks_are_looked_into() {
        let notes = |permission, name: &[u8], rest| {
            let prefix = Prefix { interface: 0, time: 0, id: 0, room: 512 };
            let call = Call::Ask { prefix, slot: 0, permission, qtype: 1, name: name.to_vec() };
            of_note_in_ask(&Line::read(&format!("0 ask if=0 t=0 id=0 {rest}")), Some(&call))
        };
        assert_eq!(notes(0, b"\x01a\0", "query to=4/00/1 len=1 hex=00"), ["one-unpermitted"]);
        assert_eq!(notes(255, b"\x01a\x01b\0", "query to=4/00/1 len=1 hex=00"), ["permission-255"]);
        let reverse = b"\x01a\x03Ip6\x04ARPA\0";
        assert_eq!(notes(0, reverse, "query to=4/00/1 len=1 hex=00"), ["reverse-unpermitted", "reverse-upper"]);
        assert!(notes(1, reverse, "query to=4/00/1 len=1 hex=00").is_empty());
        assert_eq!(notes(0, b"\x03iP6\x04arpa\0", "refused no=22"), ["two-refused", "ip6.arpa-refused"]);
        assert_eq!(notes(0, b"\x01a\x01b\0\0", "refused no=10"), ["several-bad"]);
        assert!(notes(0, b"\x01a\0\0", "refused no=10").is_empty());
    }

    #[test]
    fn replies_are_looked_into() {
        let line = "3 datagram if=0 t=1 id=2 reply to=4/00/1 len=19 hex=12348300000100000000000001610000ff00ff";
        assert_eq!(of_note_in_reply(&Line::read(line)), ["TC", "T", "empty", "class-255", "any-type-TC"]);
    }
}
