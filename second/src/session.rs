//! What is kept between the entries of a call file, and the run of a whole file.

use crate::calls::{read, Call, Prefix, Setting};
use crate::checks::Arrival;
use crate::faults::{self, Fault};
use crate::host::Host;
use crate::lines::{end_line, line, Outcome};
use crate::lookup::{Asked, Lookup};
use crate::names;
use crate::table::Lent;

/// The table, the host, the settings for lookups and the four lookups.
pub struct Session {
    fault: Fault,
    lent: Lent,
    host: Host,
    /// Those of entry 40; none means the host's.
    settings: Option<[Setting; 4]>,
    lookups: [Lookup; 4],
}

impl Session {
    pub fn new(fault: Fault) -> Session {
        let lookups = std::array::from_fn(|_| Lookup::ended());
        Session { fault, lent: Lent::default(), host: Host::unused(), settings: None, lookups }
    }

    pub fn call(&mut self, call: &Call) -> Outcome {
        let fault = self.fault;
        match call {
            Call::Table(octets) => self.table(octets),
            Call::SetUp { prefix, settings } => self.set_up(prefix, settings),
            Call::Start { prefix, name } => self.host.start(&self.lent, prefix, *name, fault),
            Call::Datagram { prefix, source, port, destination, octets } => {
                let arrival = Arrival::new(source, *port, destination, octets, fault);
                self.host.receive(&self.lent, prefix, &arrival, fault)
            }
            Call::Tick { prefix } => self.host.tick(&self.lent, prefix, fault),
            Call::Settings(settings) => {
                self.settings = Some(*settings);
                Outcome::Settings
            }
            Call::Ask { prefix, slot, permission, qtype, name } => {
                self.ask(prefix, *slot, &Asked { permission: *permission, qtype: *qtype, name })
            }
            Call::Answer { prefix, slot, source, port, destination, octets, .. } => {
                let arrival = Arrival::new(source, *port, destination, octets, fault);
                self.lookup(*slot).receive(prefix, &arrival, fault)
            }
            Call::AskTick { prefix, slot } => self.lookup(*slot).tick(prefix, fault),
            Call::Name { offset, octets } => read_name(octets, usize::from(*offset), fault),
        }
    }

    fn table(&mut self, octets: &[u8]) -> Outcome {
        self.lent = Lent::decode(octets, self.fault);
        match self.lent.bad_at {
            Some(at) => Outcome::Refused { no: 2, at: Some(at) },
            None => Outcome::Good { names: self.lent.names.len() },
        }
    }

    /// A refused set-up replaces the host too.
    fn set_up(&mut self, prefix: &Prefix, settings: &[Setting; 4]) -> Outcome {
        self.settings = None;
        match Host::set_up(&self.lent, prefix, settings, self.fault) {
            Ok(host) => {
                self.host = host;
                Outcome::Ready
            }
            Err(refusal) => {
                if self.fault != faults::SET_UP_KEEPS_HOST {
                    self.host = Host::unused();
                }
                refusal
            }
        }
    }

    /// A refused start of a lookup replaces the slot's too.
    fn ask(&mut self, prefix: &Prefix, slot: u8, asked: &Asked) -> Outcome {
        let settings = self.settings.unwrap_or(self.host.settings);
        match Lookup::start(&settings, prefix, asked, self.fault) {
            Ok((lookup, query)) => {
                *self.lookup(slot) = lookup;
                query
            }
            Err(refusal) => {
                if self.fault != faults::LOOKUP_SLOT_KEPT {
                    *self.lookup(slot) = Lookup::ended();
                }
                refusal
            }
        }
    }

    /// A file's slots are 0 to 3.
    fn lookup(&mut self, slot: u8) -> &mut Lookup {
        &mut self.lookups[usize::from(slot % 4)]
    }
}

fn read_name(message: &[u8], offset: usize, fault: Fault) -> Outcome {
    match names::read_with_pointers(message, offset, fault) {
        Some(reading) => Outcome::NameRead {
            next: reading.next,
            pointers: reading.pointers,
            labels: names::count(&reading, fault),
            octets: names::encode(&reading.labels),
        },
        None => Outcome::NameBad,
    }
}

/// All lines of a call file, each ended by a newline.
pub fn run(file: &[u8], fault: Fault) -> String {
    let (calls, end) = read(file);
    let mut session = Session::new(fault);
    let mut text = String::new();
    for (number, call) in calls.iter().enumerate() {
        text.push_str(&line(number, call, &session.call(call)));
        text.push('\n');
    }
    if let Some(end) = end {
        text.push_str(&end_line(&end));
        text.push('\n');
    }
    text
}

#[cfg(test)]
mod tests {
    use super::*;
    use crate::calls::Address;

    const S: [u8; 20] = *b"\x0c\x00\x01\x00\x06scale3\x00\x08\x00\x03\x00\xc0\x00\x02\x11";
    const ASKER: Address = Address { family: 4, octets: [192, 0, 2, 1, 0, 0, 0, 0, 0, 0, 0, 0, 0, 0, 0, 0] };
    const GROUP: Address = Address { family: 4, octets: [224, 0, 0, 252, 0, 0, 0, 0, 0, 0, 0, 0, 0, 0, 0, 0] };

    fn prefix(time: u64, id: u16) -> Prefix {
        Prefix { interface: 0, time, id, room: 512 }
    }

    /// The name started at 0 on interface 0 with 192.0.2.17 and 100 ms, and the line of the start.
    fn started(table: &[u8]) -> (Session, String) {
        let mut session = Session::new(faults::NONE);
        let mut settings = [Setting::UNUSED; 4];
        settings[0] = Setting { address: Address { family: 4, octets: [0; 16] }, interval: 100 };
        settings[0].address.octets[..4].copy_from_slice(&[192, 0, 2, 17]);
        assert_eq!(session.call(&Call::Table(table.to_vec())), Outcome::Good { names: 1 });
        assert_eq!(session.call(&Call::SetUp { prefix: prefix(0, 7), settings }), Outcome::Ready);
        let start = Call::Start { prefix: prefix(0, 9), name: 0 };
        let outcome = session.call(&start);
        (session, line(2, &start, &outcome))
    }

    fn unique(table: &[u8]) -> Session {
        let mut session = started(table).0;
        for time in [100, 200, 300] {
            session.call(&Call::Tick { prefix: prefix(time, 0) });
        }
        session
    }

    fn query(session: &mut Session, flags: [u8; 2], name: &[u8; 6], qtype: u8) -> Outcome {
        let mut octets = vec![0x12, 0x34, flags[0], flags[1], 0, 1, 0, 0, 0, 0, 0, 5, 6];
        octets.extend(name);
        octets.extend([0, 0, qtype, 0, 1]);
        let prefix = prefix(300, 1);
        session.call(&Call::Datagram { prefix, source: ASKER, port: 40_000, destination: GROUP, octets })
    }

    fn reply_octets(outcome: Outcome) -> Vec<u8> {
        match outcome {
            Outcome::Reply { octets, .. } => octets,
            other => panic!("no reply but {other:?}"),
        }
    }

    #[test]
    fn start_is_printed_as_in_the_format() {
        let want = "2 start if=0 t=0 id=9 query to=4/e00000fc000000000000000000000000/5355 len=24 \
                    hex=000900000001000000000000067363616c65330000ff0001 name=0";
        assert_eq!(started(&S).1, want);
    }

    #[test]
    fn three_sends_then_unique() {
        let mut session = started(&S).0;
        assert_eq!(session.call(&Call::Tick { prefix: prefix(99, 1) }), Outcome::Quiet);
        for time in [100, 200] {
            let outcome = session.call(&Call::Tick { prefix: prefix(time, 1) });
            assert!(matches!(outcome, Outcome::Query { octets, .. } if octets[..2] == [0, 9]));
        }
        assert_eq!(session.call(&Call::Tick { prefix: prefix(300, 1) }), Outcome::Unique { name: 0 });
    }

    #[test]
    fn unique_name_is_answered_as_asked() {
        let want = b"\x12\x34\x80\x00\x00\x01\x00\x01\x00\x00\x00\x00\x06SCALE3\x00\x00\x01\x00\x01\
                     \xc0\x0c\x00\x01\x00\x01\x00\x00\x00\x1e\x00\x04\xc0\x00\x02\x11";
        assert_eq!(reply_octets(query(&mut unique(&S), [0, 0], b"SCALE3", 1)), want);
        let none = reply_octets(query(&mut unique(&S), [0, 0], b"scale3", 28));
        assert_eq!((none.len(), &none[6..8]), (24, &[0, 0][..]));
    }

    #[test]
    fn verifying_name_is_tentative_and_takes_no_notice() {
        let mut session = started(&S).0;
        assert_eq!(reply_octets(query(&mut session, [0, 0], b"scale3", 1))[2..4], [0x81, 0]);
        assert_eq!(query(&mut session, [4, 0], b"scale3", 1), Outcome::Refused { no: 14, at: None });
    }

    #[test]
    fn eighteenth_record_is_left_out() {
        for (records, flags) in [(17, [0x80, 0]), (18, [0x82, 0])] {
            let mut table = S[..12].to_vec();
            for _ in 0..records {
                table.extend([20, 0, 4, 0]);
                table.extend([0xFE; 16]);
            }
            let octets = reply_octets(query(&mut unique(&table), [0, 0], b"scale3", 255));
            assert_eq!((octets.len(), &octets[2..4], octets[7]), (500, &flags[..], 17));
        }
    }

    #[test]
    fn notice_is_followed_by_a_defence() {
        let mut session = unique(&S);
        let outcome = query(&mut session, [4, 0], b"Scale3", 28);
        assert!(matches!(outcome, Outcome::Query { octets, .. } if octets[12..] == *b"\x06Scale3\x00\x00\x1c\x00\x01"));
        assert_eq!(query(&mut session, [4, 0], b"Scale3", 28), Outcome::Refused { no: 14, at: None });
        assert_eq!(reply_octets(query(&mut session, [0, 0], b"scale3", 1))[2..4], [0x80, 0]);
        assert_eq!(session.call(&Call::Tick { prefix: prefix(400, 1) }), Outcome::Unique { name: 0 });
    }

    /// A response to the check of the started name, with T clear and one answer record with this TTL.
    fn lose(session: &mut Session, time: u64, ttl: u32) {
        let mut octets = b"\x00\x09\x80\0\0\x01\0\x01\0\0\0\0\x06scale3\0\0\xff\0\x01\xc0\x0c\0\x01\0\x01".to_vec();
        octets.extend([&ttl.to_be_bytes()[..], &[0, 4, 1, 2, 3, 4]].concat());
        let (source, destination) = (Address { octets: [255; 16], ..ASKER }, session.host.settings[0].address);
        let call = Call::Datagram { prefix: prefix(time, 1), source, port: 5355, destination, octets };
        assert_eq!(session.call(&call), Outcome::Stopped { name: 0 });
    }

    /// The refusal of a start of the name at a time; 0 if it is accepted.
    fn refusal(session: &mut Session, time: u64) -> u8 {
        match session.call(&Call::Start { prefix: prefix(time, 9), name: 0 }) {
            Outcome::Refused { no, .. } => no,
            _ => 0,
        }
    }

    #[test]
    fn a_lost_name_is_not_started_too_soon() {
        let mut session = started(&S).0;
        lose(&mut session, 50, 1);
        assert_eq!(
            [50, 1_049, 49, 1_049, 1_050, 1_050].map(|time| refusal(&mut session, time)),
            [21, 21, 4, 21, 0, 19]
        );
        lose(&mut session, 1_050, 0);
        assert_eq!(refusal(&mut session, 1_050), 0);
        let last = (1 << 48) - 1;
        lose(&mut session, last - 29_999, 30);
        assert_eq!([last, last + 1].map(|time| refusal(&mut session, time)), [21, 4]);
    }

    #[test]
    fn too_soon_is_looked_at_last_and_whatever_the_kind() {
        for fault in [faults::NONE, faults::TOO_SOON_FIRST, faults::TOO_SOON_AT_END, faults::TOO_SOON_IF_UNIQUE] {
            let mut session = started(&S).0;
            session.fault = fault;
            lose(&mut session, 50, 1);
            session.call(&Call::Table(Vec::new()));
            let gone = refusal(&mut session, 1_049);
            let mut shared = S;
            shared[2] = 2;
            session.call(&Call::Table(shared.to_vec()));
            let found = [gone, refusal(&mut session, 1_049), refusal(&mut session, 1_050)];
            let wanted = match fault {
                faults::TOO_SOON_FIRST => [21, 21, 0],
                faults::TOO_SOON_AT_END => [12, 21, 21],
                faults::TOO_SOON_IF_UNIQUE => [12, 0, 19],
                _ => [12, 21, 0],
            };
            assert_eq!(found, wanted);
        }
    }

    #[test]
    fn a_name_is_printed_with_its_labels() {
        let octets = b"\0\0\0\0\0\0\0\0\0\0\0\0\x05plant\0\x06scale3\xc0\x0c".to_vec();
        let file = Call::Name { offset: 19, octets }.encode();
        let want = "0 name next=28 pointers=1 labels=2 name=067363616c653305706c616e7400\n";
        assert_eq!(run(&file, faults::NONE), want);
    }

    #[test]
    fn a_cut_entry_ends_the_run() {
        assert_eq!(run(&[4, 0, 31, 0, 5, 0, 31, 0], faults::NONE), "0 table good names=0\nend at=4 why=cut\n");
        assert_eq!(run(&vec![0; 262_145], faults::NONE), "end at=262144 why=long\n");
    }
}
