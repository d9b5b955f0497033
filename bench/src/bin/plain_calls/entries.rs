//! The entries of a call file.

use bench::plain::state::{Address, Arrival, Endpoint, Setting, INTERFACES};

#[derive(Clone, Copy)]
pub struct Prefix {
    pub interface: u8,
    pub time: u64,
    pub id: u16,
    /// Octets of the buffer that is lent to the call.
    pub room: u32,
}

pub type Settings = [Setting; INTERFACES];

pub enum Entry<'a> {
    Table(&'a [u8]),
    SetUp(Prefix, Settings),
    Start(Prefix, u8),
    Datagram(Prefix, Arrival<'a>),
    Tick(Prefix),
    Settings(Settings),
    Ask { prefix: Prefix, slot: usize, permitted: bool, qtype: u16, name: &'a [u8] },
    Answer(Prefix, usize, Arrival<'a>),
    AskTick(Prefix, usize),
    Name(u16, &'a [u8]),
}

/// The entry that `file` begins with, and its length; or the word that says why there is none.
pub fn read(file: &[u8]) -> Result<(Entry<'_>, usize), &'static str> {
    let head = file.first_chunk::<4>().ok_or("cut")?;
    let length = usize::from(u16::from_le_bytes([head[0], head[1]]));
    if length < 4 {
        return Err("short");
    }
    let mut body = Body(file.get(4..length).ok_or("cut")?);
    let kind = u16::from_le_bytes([head[2], head[3]]);
    if !matches!(kind, 31..=35 | 40..=43 | 54) {
        return Err("kind");
    }
    let entry = body.entry(kind).filter(|_| body.0.is_empty()).ok_or("size")?;
    Ok((entry, length))
}

/// What is left of an entry's body. Every method takes its octets from the front.
struct Body<'a>(&'a [u8]);

impl<'a> Body<'a> {
    fn entry(&mut self, kind: u16) -> Option<Entry<'a>> {
        Some(match kind {
            31 => Entry::Table(self.rest()),
            32 => Entry::SetUp(self.prefix()?, self.settings()?),
            33 => Entry::Start(self.prefix()?, self.octet()?),
            34 => Entry::Datagram(self.prefix()?, self.arrival()?),
            35 => Entry::Tick(self.prefix()?),
            40 => Entry::Settings(self.settings()?),
            41 => {
                let (prefix, slot) = (self.prefix()?, self.slot()?);
                let permitted = self.octet()? != 0;
                Entry::Ask { prefix, slot, permitted, qtype: self.word()?, name: self.rest() }
            }
            42 => {
                let (prefix, slot) = (self.prefix()?, self.slot()?);
                let _cache_room = self.take::<4>()?;
                Entry::Answer(prefix, slot, self.arrival()?)
            }
            43 => Entry::AskTick(self.prefix()?, self.slot()?),
            _ => Entry::Name(self.word()?, self.rest()),
        })
    }

    fn take<const N: usize>(&mut self) -> Option<[u8; N]> {
        let (taken, rest) = self.0.split_first_chunk::<N>()?;
        self.0 = rest;
        Some(*taken)
    }

    fn octet(&mut self) -> Option<u8> {
        self.take::<1>().map(|[octet]| octet)
    }

    fn word(&mut self) -> Option<u16> {
        self.take().map(u16::from_le_bytes)
    }

    fn rest(&mut self) -> &'a [u8] {
        std::mem::take(&mut self.0)
    }

    fn slot(&mut self) -> Option<usize> {
        self.octet().filter(|slot| *slot <= 3).map(usize::from)
    }

    fn prefix(&mut self) -> Option<Prefix> {
        let (interface, time) = (self.octet()?, u64::from_le_bytes(self.take()?));
        Some(Prefix { interface, time, id: self.word()?, room: u32::from_le_bytes(self.take()?) })
    }

    fn address(&mut self) -> Option<Address> {
        Some(Address { family: self.octet()?, octets: self.take()? })
    }

    fn settings(&mut self) -> Option<Settings> {
        let mut settings = Settings::default();
        for setting in &mut settings {
            *setting = Setting { address: self.address()?, interval: self.word()? };
        }
        Some(settings)
    }

    fn arrival(&mut self) -> Option<Arrival<'a>> {
        let from = Endpoint { address: self.address()?, port: self.word()? };
        Some(Arrival { from, to: self.address()?, octets: self.rest() })
    }
}
