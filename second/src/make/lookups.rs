//! The calls to lookups in random call files: settings for lookups, start, datagrams and ticks, on four slots.

use super::draft::{self, Draft, Near, CONFLICT, RESPONSE, TENTATIVE, TRUNCATED};
use super::memory::{Lookup, Memory, Phase, LAST_TIME};
use super::{addresses, names, pointers, reverse, Maker};
use crate::calls::{Call, Setting};

/// The room for cached answers, which is not read yet.
const CACHE_ROOM: u32 = 18_432;
const LONGEST: usize = 9194;

impl Maker {
    pub fn lookup_settings(&mut self) -> Call {
        Call::Settings(addresses::odd_settings(&mut self.random, &self.memory.settings))
    }

    /// One of the file's names or one about in-addr.arpa and ip6.arpa, now and then spoilt.
    fn lookup_name(&mut self) -> Vec<u8> {
        let name = if self.random.chance(1, 4) {
            reverse::name(&mut self.random)
        } else {
            self.pool[self.random.below(self.pool.len())].clone()
        };
        match self.random.below(20) {
            0 => names::bad(&mut self.random, &name),
            1 => self.random.pick(&[&[0][..], &[0, 0], &[]]).to_vec(),
            2 => [&name[..], &[self.random.pick(&[0, 1, 97])]].concat(),
            3..=6 => names::other_case(&mut self.random, &name),
            _ => name,
        }
    }

    pub fn ask(&mut self) -> Call {
        let ended = self.memory.lookups_in(&[Phase::Ended]);
        let slot =
            if ended.is_empty() || self.random.chance(1, 8) { self.random.below(4) } else { self.random.pick(&ended) };
        let settings = self.memory.lookup_settings;
        let used = Memory::used(&settings);
        let interface = if used.is_empty() { self.random.below(4) } else { self.random.pick(&used) };
        // A start has no earlier time: it may go back.
        let time = match self.random.below(10) {
            0 => self.memory.lookups[slot].clock.saturating_sub(1),
            1 => self.random.word() & LAST_TIME,
            2 => LAST_TIME - self.random.below(2500) as u64,
            3 => 0,
            _ => self.soon(self.memory.clock),
        };
        let mut prefix = self.prefix(interface, time);
        if self.random.chance(1, 10) {
            let clock = self.memory.lookups[slot].clock;
            let near = Near { settings: &settings, interface, clock, pool: &self.pool };
            draft::slip_prefix(&mut self.random, &mut prefix, &near);
        }
        let name = self.lookup_name();
        let permission = self.random.pick(&[0, 0, 0, 1, 1, 2, 255]);
        let qtype = self.random.pick(&[1, 1, 28, 12, 255, 0, 2, 256, 65535]);
        Call::Ask { prefix, slot: slot as u8, permission, qtype, name }
    }

    /// A slot whose lookup is still going on, if there is one.
    fn waiting_slot(&mut self) -> usize {
        let waiting = self.memory.lookups_in(&[Phase::Asking, Phase::Collecting]);
        if waiting.is_empty() || self.random.chance(1, 12) {
            self.random.below(4)
        } else {
            self.random.pick(&waiting)
        }
    }

    pub fn ask_tick(&mut self) -> Call {
        let slot = self.waiting_slot();
        let Lookup { phase, due, clock, .. } = self.memory.lookups[slot];
        let time = if phase == Phase::Ended { self.soon(clock) } else { self.about(due, clock) };
        let interface = self.random.below(5);
        let mut prefix = self.prefix(interface, time);
        if self.random.chance(1, 8) {
            let settings = [Setting::UNUSED; 4];
            let near = Near { settings: &settings, interface: 0, clock, pool: &self.pool };
            draft::slip_prefix(&mut self.random, &mut prefix, &near);
        }
        Call::AskTick { prefix, slot: slot as u8 }
    }

    /// The answer that the slot's lookup waits for, with C set or clear and no records yet.
    fn lookup_draft(&mut self, slot: usize) -> Draft {
        let lookup = self.memory.lookups[slot].clone();
        let own = lookup.settings[lookup.interface].address;
        let time = if self.random.chance(1, 4) {
            self.about(lookup.due.min(LAST_TIME), lookup.clock)
        } else {
            self.soon(lookup.clock)
        };
        let collecting = lookup.phase == Phase::Collecting;
        let conflict = if self.random.chance(if collecting { 5 } else { 3 }, 6) { CONFLICT } else { 0 };
        let interface = self.random.below(5);
        let prefix = self.prefix(interface, time);
        let source = self.source(own);
        let random = &mut self.random;
        Draft {
            prefix,
            source,
            port: random.pick(&[5355, 5355, 0, 1, 5354, 65535]),
            destination: if random.chance(3, 4) { own } else { addresses::near_group(random, own.family) },
            id: lookup.id,
            flags: RESPONSE | conflict | random.word() as u16 & (TRUNCATED | 0x00f0),
            counts: [1, 0, random.pick(&[0, 0, 1, 65535]), random.pick(&[0, 0, 1, 65535])],
            name: names::other_case(random, &lookup.name),
            qtype: lookup.qtype,
            class: 1,
            after: Vec::new(),
            length: None,
        }
    }

    /// Gives the draft some answer records, the last of them often the one with something amiss.
    fn put_records(&mut self, draft: &mut Draft) {
        let random = &mut self.random;
        let mut message = draft.octets();
        let begin = message.len();
        let mut earlier = 12;
        // A deep one has owners that each point at the one before: the 17th has too many pointers.
        let deep = random.chance(1, 12);
        let count = if deep { random.pick(&[15, 16, 17, 18]) } else { random.pick(&[0, 1, 1, 1, 2, 3, 5]) };
        let amiss = random.chance(1, 8);
        for number in 0..count {
            let start = message.len();
            if amiss && number + 1 == count {
                pointers::bad_owner(random, &mut message);
            } else if deep {
                pointers::next_owner(random, &mut message, earlier);
            } else {
                pointers::good_owner(random, &mut message, earlier);
            }
            if deep || random.chance(3, 4) {
                earlier = start;
            }
            message.extend([0, random.pick(&[1, 28, 12]), 0, 1, 0, 0, 0, 30]);
            let length = random.pick(&[0, 1, 4, 4, 4, 16, 16, 250]);
            message.extend([0, length as u8]);
            message.extend(random.octets(length));
        }
        draft.after = message.split_off(begin);
        draft.counts[1] = count;
        self.slip_records(draft);
    }

    fn slip_records(&mut self, draft: &mut Draft) {
        let random = &mut self.random;
        match random.below(20) {
            0 => draft.counts[1] = draft.counts[1].wrapping_add(random.pick(&[1, 2, 256, 65535])),
            1 => draft.after.truncate(draft.after.len().saturating_sub(random.between(1, 4))),
            2 => draft.after.truncate(random.below(draft.after.len() + 1)),
            3 => {
                let length = random.between(1, 12);
                draft.after.extend(random.octets(length));
            }
            4 if random.chance(1, 6) => {
                // One more record whose data ends at the longest datagram's end, or one octet before or after.
                let begin = draft.question_end() + draft.after.len() + 12;
                let length = (LONGEST - begin.min(LONGEST)) as u16;
                draft.after.extend([0xc0, 12, 0, 1, 0, 1, 0, 0, 0, 30]);
                draft.after.extend(length.wrapping_add(random.pick(&[0, 0, 1, 65535])).to_be_bytes());
                draft.counts[1] = draft.counts[1].wrapping_add(1);
                draft.length = Some(LONGEST);
            }
            _ => {}
        }
    }

    pub fn answer(&mut self) -> Call {
        let slot = self.waiting_slot();
        let mut draft = self.lookup_draft(slot);
        let (settings, clock) = (self.memory.lookups[slot].settings, self.memory.lookups[slot].clock);
        let interface = self.memory.lookups[slot].interface;
        let mut slips = draft::slips(&mut self.random);
        if slips > 0 && self.random.chance(1, 5) {
            // With another slip beside it, to see which check comes first.
            draft.flags ^= self.random.pick(&[TENTATIVE, TENTATIVE, RESPONSE, CONFLICT]);
            slips = self.random.below(2);
        }
        self.put_records(&mut draft);
        for _ in 0..slips {
            let near = Near { settings: &settings, interface, clock, pool: &self.pool };
            draft::slip(&mut self.random, &mut draft, &near);
        }
        let octets = draft.octets();
        let Draft { prefix, source, port, destination, .. } = draft;
        Call::Answer { prefix, slot: slot as u8, cache: CACHE_ROOM, source, port, destination, octets }
    }
}
