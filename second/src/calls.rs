//! The entries of a call file: their values, how they are read from a file's octets and how they are written as such.

/// A file above this many octets is not read at all.
pub const LONGEST_FILE: usize = 262_144;

#[derive(Clone, Copy, PartialEq, Eq, Debug)]
pub struct Address {
    pub family: u8,
    pub octets: [u8; 16],
}

#[derive(Clone, Copy, PartialEq, Eq, Debug)]
pub struct Prefix {
    pub interface: u8,
    pub time: u64,
    pub id: u16,
    pub room: u32,
}

#[derive(Clone, Copy, PartialEq, Eq, Debug)]
pub struct Setting {
    pub address: Address,
    pub interval: u16,
}

impl Setting {
    /// An interface that is not used, with all else zero.
    pub const UNUSED: Setting = Setting { address: Address { family: 0, octets: [0; 16] }, interval: 0 };
}

#[derive(Clone, PartialEq, Eq, Debug)]
pub enum Call {
    /// Kind 31
    Table(Vec<u8>),
    /// Kind 32
    SetUp { prefix: Prefix, settings: [Setting; 4] },
    /// Kind 33
    Start { prefix: Prefix, name: u8 },
    /// Kind 34
    Datagram { prefix: Prefix, source: Address, port: u16, destination: Address, octets: Vec<u8> },
    /// Kind 35
    Tick { prefix: Prefix },
    /// Kind 40
    Settings([Setting; 4]),
    /// Kind 41
    Ask { prefix: Prefix, slot: u8, permission: u8, qtype: u16, name: Vec<u8> },
    /// Kind 42
    Answer { prefix: Prefix, slot: u8, cache: u32, source: Address, port: u16, destination: Address, octets: Vec<u8> },
    /// Kind 43
    AskTick { prefix: Prefix, slot: u8 },
    /// Kind 54
    Name { offset: u16, octets: Vec<u8> },
}

/// Why the run of a file ends before its last octet.
#[derive(Clone, Copy, PartialEq, Eq, Debug)]
pub enum Why {
    Cut,
    Short,
    Kind,
    Size,
    Long,
}

/// The offset of the entry that ends the run, and why it does.
#[derive(Clone, Copy, PartialEq, Eq, Debug)]
pub struct End {
    pub at: usize,
    pub why: Why,
}

/// Reads all entries up to the first that cannot be read.
pub fn read(file: &[u8]) -> (Vec<Call>, Option<End>) {
    if file.len() > LONGEST_FILE {
        return (Vec::new(), Some(End { at: LONGEST_FILE, why: Why::Long }));
    }
    let mut calls = Vec::new();
    let mut at = 0;
    while at < file.len() {
        match read_entry(&file[at..]) {
            Ok((call, length)) => {
                calls.push(call);
                at += length;
            }
            Err(why) => return (calls, Some(End { at, why })),
        }
    }
    (calls, None)
}

/// One entry at the beginning of `octets`, with its length.
fn read_entry(octets: &[u8]) -> Result<(Call, usize), Why> {
    if octets.len() < 4 {
        return Err(Why::Cut);
    }
    let length = usize::from(u16::from_le_bytes([octets[0], octets[1]]));
    let kind = u16::from_le_bytes([octets[2], octets[3]]);
    if length < 4 {
        return Err(Why::Short);
    }
    if length > octets.len() {
        return Err(Why::Cut);
    }
    let mut body = Body(&octets[4..length]);
    let call = match kind {
        31 => Some(Call::Table(body.rest())),
        32..=35 => host_call(kind, &mut body),
        40..=43 => lookup_call(kind, &mut body),
        54 => name_call(&mut body),
        _ => return Err(Why::Kind),
    };
    match call {
        Some(call) if body.0.is_empty() => Ok((call, length)),
        _ => Err(Why::Size),
    }
}

fn host_call(kind: u16, body: &mut Body) -> Option<Call> {
    let prefix = body.prefix()?;
    Some(match kind {
        32 => Call::SetUp { prefix, settings: body.settings()? },
        33 => Call::Start { prefix, name: body.octet()? },
        34 => Call::Datagram {
            prefix,
            source: body.address()?,
            port: body.word()?,
            destination: body.address()?,
            octets: body.rest(),
        },
        _ => Call::Tick { prefix },
    })
}

fn lookup_call(kind: u16, body: &mut Body) -> Option<Call> {
    if kind == 40 {
        return Some(Call::Settings(body.settings()?));
    }
    let prefix = body.prefix()?;
    // A slot above 3 counts as a wrong size.
    let slot = body.octet().filter(|slot| *slot <= 3)?;
    Some(match kind {
        41 => Call::Ask { prefix, slot, permission: body.octet()?, qtype: body.word()?, name: body.rest() },
        42 => Call::Answer {
            prefix,
            slot,
            cache: u32::from_le_bytes(body.take()?),
            source: body.address()?,
            port: body.word()?,
            destination: body.address()?,
            octets: body.rest(),
        },
        _ => Call::AskTick { prefix, slot },
    })
}

fn name_call(body: &mut Body) -> Option<Call> {
    Some(Call::Name { offset: body.word()?, octets: body.rest() })
}

/// What is left to read of an entry's body.
struct Body<'a>(&'a [u8]);

impl Body<'_> {
    fn take<const N: usize>(&mut self) -> Option<[u8; N]> {
        let (first, rest) = self.0.split_first_chunk::<N>()?;
        self.0 = rest;
        Some(*first)
    }

    fn octet(&mut self) -> Option<u8> {
        self.take::<1>().map(|octets| octets[0])
    }

    fn word(&mut self) -> Option<u16> {
        self.take().map(u16::from_le_bytes)
    }

    fn rest(&mut self) -> Vec<u8> {
        std::mem::take(&mut self.0).to_vec()
    }

    fn address(&mut self) -> Option<Address> {
        Some(Address { family: self.octet()?, octets: self.take()? })
    }

    fn prefix(&mut self) -> Option<Prefix> {
        Some(Prefix {
            interface: self.octet()?,
            time: u64::from_le_bytes(self.take()?),
            id: self.word()?,
            room: u32::from_le_bytes(self.take()?),
        })
    }

    fn settings(&mut self) -> Option<[Setting; 4]> {
        let mut settings = [Setting::UNUSED; 4];
        for setting in &mut settings {
            *setting = Setting { address: self.address()?, interval: self.word()? };
        }
        Some(settings)
    }
}

impl Call {
    /// The whole entry: length, kind, body. A body too long for the two octets of the length gets length 0.
    pub fn encode(&self) -> Vec<u8> {
        let mut entry = vec![0, 0];
        entry.extend(self.kind().to_le_bytes());
        self.encode_body(&mut entry);
        let length = u16::try_from(entry.len()).unwrap_or(0);
        entry[..2].copy_from_slice(&length.to_le_bytes());
        entry
    }

    fn kind(&self) -> u16 {
        match self {
            Call::Table(_) => 31,
            Call::SetUp { .. } => 32,
            Call::Start { .. } => 33,
            Call::Datagram { .. } => 34,
            Call::Tick { .. } => 35,
            Call::Settings(_) => 40,
            Call::Ask { .. } => 41,
            Call::Answer { .. } => 42,
            Call::AskTick { .. } => 43,
            Call::Name { .. } => 54,
        }
    }

    fn encode_body(&self, entry: &mut Vec<u8>) {
        if let Some(prefix) = self.prefix() {
            put_prefix(entry, prefix);
        }
        match self {
            Call::Table(octets) => entry.extend(octets),
            Call::SetUp { settings, .. } | Call::Settings(settings) => put_settings(entry, settings),
            Call::Start { name, .. } => entry.push(*name),
            Call::Tick { .. } => {}
            Call::Datagram { source, port, destination, octets, .. } => {
                put_datagram(entry, source, *port, destination, octets);
            }
            Call::Ask { slot, permission, qtype, name, .. } => {
                entry.extend([*slot, *permission]);
                entry.extend(qtype.to_le_bytes());
                entry.extend(name);
            }
            Call::Answer { slot, cache, source, port, destination, octets, .. } => {
                entry.push(*slot);
                entry.extend(cache.to_le_bytes());
                put_datagram(entry, source, *port, destination, octets);
            }
            Call::AskTick { slot, .. } => entry.push(*slot),
            Call::Name { offset, octets } => {
                entry.extend(offset.to_le_bytes());
                entry.extend(octets);
            }
        }
    }

    /// The prefix of those calls that have one.
    pub fn prefix(&self) -> Option<&Prefix> {
        match self {
            Call::Table(_) | Call::Settings(_) | Call::Name { .. } => None,
            Call::SetUp { prefix, .. }
            | Call::Start { prefix, .. }
            | Call::Datagram { prefix, .. }
            | Call::Tick { prefix }
            | Call::Ask { prefix, .. }
            | Call::Answer { prefix, .. }
            | Call::AskTick { prefix, .. } => Some(prefix),
        }
    }

    /// The same call with another prefix, if it has one.
    pub fn with_prefix(&self, new: Prefix) -> Call {
        let mut call = self.clone();
        match &mut call {
            Call::Table(_) | Call::Settings(_) | Call::Name { .. } => {}
            Call::SetUp { prefix, .. }
            | Call::Start { prefix, .. }
            | Call::Datagram { prefix, .. }
            | Call::Tick { prefix }
            | Call::Ask { prefix, .. }
            | Call::Answer { prefix, .. }
            | Call::AskTick { prefix, .. } => *prefix = new,
        }
        call
    }
}

fn put_prefix(entry: &mut Vec<u8>, prefix: &Prefix) {
    entry.push(prefix.interface);
    entry.extend(prefix.time.to_le_bytes());
    entry.extend(prefix.id.to_le_bytes());
    entry.extend(prefix.room.to_le_bytes());
}

fn put_address(entry: &mut Vec<u8>, address: &Address) {
    entry.push(address.family);
    entry.extend(address.octets);
}

fn put_settings(entry: &mut Vec<u8>, settings: &[Setting; 4]) {
    for setting in settings {
        put_address(entry, &setting.address);
        entry.extend(setting.interval.to_le_bytes());
    }
}

fn put_datagram(entry: &mut Vec<u8>, source: &Address, port: u16, destination: &Address, octets: &[u8]) {
    put_address(entry, source);
    entry.extend(port.to_le_bytes());
    put_address(entry, destination);
    entry.extend(octets);
}
