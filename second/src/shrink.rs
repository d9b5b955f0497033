//! Making a call file smaller while two programs still differ on it: entries go first, by halves and then one by one,
//! then octets of datagrams, tables and names, and last the fields are made plain.

use crate::calls::{read, Address, Call, Prefix, Setting};
use std::time::{Duration, Instant};

/// How long one file may be worked on.
const TIME_LIMIT: Duration = Duration::from_secs(60);

struct Shrinker<'a> {
    differs: &'a mut dyn FnMut(&[u8]) -> bool,
    begin: Instant,
    calls: Vec<Call>,
    /// The octets from the entry on that ends the run.
    tail: Vec<u8>,
}

/// The smallest file found on which `differs` still holds, as it does on the given one.
pub fn shrink(file: &[u8], differs: &mut dyn FnMut(&[u8]) -> bool) -> Vec<u8> {
    let (calls, end) = read(file);
    let tail = end.map_or(Vec::new(), |end| file[end.at.min(file.len())..].to_vec());
    let whole = join(&calls, &tail);
    if whole != file {
        // A file that is too long has no entries.
        return file.to_vec();
    }
    let mut shrinker = Shrinker { differs, begin: Instant::now(), calls, tail };
    shrinker.drop_tail();
    loop {
        let before = join(&shrinker.calls, &shrinker.tail);
        shrinker.drop_calls();
        shrinker.simplify();
        if join(&shrinker.calls, &shrinker.tail) == before || shrinker.time_is_up() {
            return join(&shrinker.calls, &shrinker.tail);
        }
    }
}

fn join(calls: &[Call], tail: &[u8]) -> Vec<u8> {
    let mut file: Vec<u8> = calls.iter().flat_map(Call::encode).collect();
    file.extend(tail);
    file
}

impl Shrinker<'_> {
    fn time_is_up(&self) -> bool {
        self.begin.elapsed() >= TIME_LIMIT
    }

    fn still_differs(&mut self, calls: &[Call], tail: &[u8]) -> bool {
        !self.time_is_up() && (self.differs)(&join(calls, tail))
    }

    fn drop_tail(&mut self) {
        let calls = self.calls.clone();
        if self.still_differs(&calls, &[]) {
            self.tail.clear();
        }
    }

    /// Drops runs of entries, from half of all down to single ones.
    fn drop_calls(&mut self) {
        let mut size = self.calls.len().div_ceil(2);
        while size > 0 {
            let mut end = self.calls.len();
            while end > 0 {
                let begin = end.saturating_sub(size);
                let mut fewer = self.calls.clone();
                fewer.drain(begin..end);
                let tail = self.tail.clone();
                if self.still_differs(&fewer, &tail) {
                    self.calls = fewer;
                }
                end = begin;
            }
            size /= 2;
        }
    }

    fn simplify(&mut self) {
        for place in 0..self.calls.len() {
            let mut round = 0;
            while round < 40 && self.simplify_once(place) {
                round += 1;
            }
        }
    }

    /// True if something of the entry was made simpler.
    fn simplify_once(&mut self, place: usize) -> bool {
        let mut simpler = false;
        let mut number = 0;
        // The list is made anew after each success: what it offers depends on the entry as it is now.
        while let Some(candidate) = simpler_calls(&self.calls[place]).into_iter().nth(number) {
            number += 1;
            let mut calls = self.calls.clone();
            calls[place] = candidate;
            let tail = self.tail.clone();
            if self.still_differs(&calls, &tail) {
                self.calls = calls;
                simpler = true;
            }
        }
        simpler
    }
}

/// The octets with a run left out, or with one octet zero.
fn simpler_octets(octets: &[u8]) -> Vec<Vec<u8>> {
    let mut found = Vec::new();
    let mut size = octets.len();
    while size > 0 && size >= octets.len() / 64 {
        for begin in (0..octets.len()).step_by(size).rev() {
            let end = (begin + size).min(octets.len());
            found.push([&octets[..begin], &octets[end..]].concat());
        }
        size /= 2;
    }
    if octets.len() <= 600 {
        for place in (0..octets.len()).filter(|&place| octets[place] != 0) {
            let mut plain = octets.to_vec();
            plain[place] = 0;
            found.push(plain);
        }
    }
    found
}

/// The table with a run of entries left out, from half of them down to single ones.
fn simpler_tables(octets: &[u8]) -> Vec<Vec<u8>> {
    let mut places = vec![0];
    let mut at = 0;
    while at + 4 <= octets.len() {
        at += usize::from(u16::from_le_bytes([octets[at], octets[at + 1]])).max(4);
        places.push(at.min(octets.len()));
    }
    let mut found = Vec::new();
    let mut size = (places.len() - 1).div_ceil(2);
    while size > 0 {
        for begin in (0..places.len() - 1).rev() {
            let end = (begin + size).min(places.len() - 1);
            found.push([&octets[..places[begin]], &octets[places[end]..]].concat());
        }
        size /= 2;
    }
    found
}

fn simpler_prefixes(prefix: &Prefix) -> Vec<Prefix> {
    let all = [
        Prefix { room: 512, ..*prefix },
        Prefix { id: 0, ..*prefix },
        Prefix { id: prefix.id.min(1), ..*prefix },
        Prefix { time: 0, ..*prefix },
        Prefix { time: prefix.time / 2, ..*prefix },
        Prefix { time: prefix.time - prefix.time % 100, ..*prefix },
        Prefix { time: prefix.time.saturating_sub(1), ..*prefix },
        Prefix { interface: 0, ..*prefix },
    ];
    all.into_iter().filter(|other| other != prefix).collect()
}

fn simpler_addresses(address: &Address) -> Vec<Address> {
    let mut all = vec![Address { octets: [0; 16], ..*address }];
    for place in 0..16 {
        let mut plain = *address;
        plain.octets[place] = 0;
        all.push(plain);
    }
    all.into_iter().filter(|other| other != address).collect()
}

fn simpler_settings(settings: &[Setting; 4]) -> Vec<[Setting; 4]> {
    let mut found = Vec::new();
    for place in 0..4 {
        let mut others = vec![Setting::UNUSED];
        if settings[place] != Setting::UNUSED {
            others.push(Setting { interval: 100, ..settings[place] });
            let addresses = simpler_addresses(&settings[place].address);
            others.extend(addresses.into_iter().map(|address| Setting { address, ..settings[place] }));
        }
        for other in others.into_iter().filter(|other| *other != settings[place]) {
            let mut simpler = *settings;
            simpler[place] = other;
            found.push(simpler);
        }
    }
    found
}

fn with_octets(call: &Call, new: Vec<u8>) -> Call {
    let mut call = call.clone();
    match &mut call {
        Call::Table(octets)
        | Call::Datagram { octets, .. }
        | Call::Answer { octets, .. }
        | Call::Ask { name: octets, .. }
        | Call::Name { octets, .. } => *octets = new,
        _ => {}
    }
    call
}

fn with_addresses(call: &Call, from: Address, to: Address, number: u16) -> Call {
    let mut call = call.clone();
    if let Call::Datagram { source, destination, port, .. } | Call::Answer { source, destination, port, .. } = &mut call
    {
        (*source, *destination, *port) = (from, to, number);
    }
    call
}

/// Entries that are a little simpler than the given one.
fn simpler_calls(call: &Call) -> Vec<Call> {
    let mut found = Vec::new();
    match call {
        Call::Table(octets) => {
            let simpler = simpler_tables(octets).into_iter().chain(simpler_octets(octets));
            found.extend(simpler.map(Call::Table));
        }
        Call::Datagram { octets, .. }
        | Call::Answer { octets, .. }
        | Call::Ask { name: octets, .. }
        | Call::Name { octets, .. } => {
            found.extend(simpler_octets(octets).into_iter().map(|octets| with_octets(call, octets)));
        }
        Call::SetUp { prefix, settings } => {
            let simpler = simpler_settings(settings).into_iter();
            found.extend(simpler.map(|settings| Call::SetUp { prefix: *prefix, settings }));
        }
        Call::Settings(settings) => found.extend(simpler_settings(settings).into_iter().map(Call::Settings)),
        Call::Start { .. } | Call::Tick { .. } | Call::AskTick { .. } => {}
    }
    if let Call::Datagram { source, destination, port, .. } | Call::Answer { source, destination, port, .. } = call {
        let sources = simpler_addresses(source).into_iter().map(|from| with_addresses(call, from, *destination, *port));
        found.extend(sources);
        let targets = simpler_addresses(destination).into_iter().map(|to| with_addresses(call, *source, to, *port));
        found.extend(targets);
        if *port != 0 {
            found.push(with_addresses(call, *source, *destination, 0));
        }
    }
    if let Some(prefix) = call.prefix() {
        found.extend(simpler_prefixes(prefix).into_iter().map(|prefix| call.with_prefix(prefix)));
    }
    found
}

#[cfg(test)]
mod tests {
    use super::*;

    #[test]
    fn the_difference_is_kept_and_the_rest_goes() {
        let prefix = Prefix { interface: 2, time: 700, id: 9, room: 600 };
        let mut calls: Vec<Call> = (0..50).map(|name| Call::Start { prefix, name }).collect();
        calls.insert(31, Call::Name { offset: 3, octets: (0..200).collect() });
        let file = join(&calls, &[7]);
        let mut differs = |file: &[u8]| {
            let (calls, _) = read(file);
            let seven = calls.iter().any(|call| matches!(call, Call::Start { name: 7, .. }));
            seven && calls.iter().any(|call| matches!(call, Call::Name { octets, .. } if octets.contains(&77)))
        };
        let small = shrink(&file, &mut differs);
        assert!(differs(&small));
        let plain = Prefix { interface: 0, time: 0, id: 0, room: 512 };
        let wanted = [Call::Start { prefix: plain, name: 7 }, Call::Name { offset: 3, octets: vec![77] }];
        assert_eq!(small, join(&wanted, &[]));
    }

    #[test]
    fn a_bad_end_is_kept_if_it_is_what_differs() {
        let file = join(&[Call::Table(vec![1, 2, 3]), Call::Table(Vec::new())], &[9, 9]);
        assert_eq!(shrink(&file, &mut |file| read(file).1.is_some()), [9, 9]);
    }
}
