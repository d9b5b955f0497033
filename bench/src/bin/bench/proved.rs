//! The C interface of the proved library, as `include/llmnr.h` declares it, and how its structs stand for the states of
//! the plain responder.

use crate::seen::Told;
use bench::plain::state as plain;
use bench::plain::state::{INTERFACES, NAMES};

#[repr(C)]
#[derive(Clone, Copy)]
pub struct Address {
    family: u8,
    octets: [u8; 16],
}

#[repr(C)]
#[derive(Clone, Copy)]
pub struct Endpoint {
    address: Address,
    port: u16,
}

#[repr(C)]
#[derive(Clone, Copy)]
pub struct Setting {
    family: u8,
    address: [u8; 16],
    interval: u16,
}

#[repr(C)]
#[derive(Clone, Copy)]
pub struct Outcome {
    what: u8,
    refusal: u8,
    answers: u16,
    at: usize,
    name: usize,
    len: usize,
}

#[repr(C)]
#[derive(Clone, Copy)]
pub struct Name {
    state: u8,
    sends: u8,
    id: u16,
    qtype: u16,
    qclass: u16,
    due: u64,
}

#[repr(C)]
#[derive(Clone, Copy)]
pub struct Settings {
    pub interfaces: [Setting; INTERFACES],
}

#[repr(C)]
#[derive(Clone, Copy)]
pub struct Names {
    pub names: [Name; NAMES],
}

#[repr(C)]
pub struct Host {
    pub settings: Settings,
    pub interfaces: [Names; INTERFACES],
    pub clock: u64,
}

#[repr(C)]
pub struct Step {
    pub clock: u64,
    pub name: Name,
    pub outcome: Outcome,
    pub to: Endpoint,
    pub changed: bool,
}

impl Host {
    /// As llmnr_take of the header.
    #[inline(always)]
    pub fn take(&mut self, interface: usize, step: &Step) {
        self.clock = step.clock;
        if step.changed {
            self.interfaces[interface].names[step.outcome.name] = step.name;
        }
    }
}

#[repr(C)]
#[derive(Clone, Copy)]
pub struct Lookup {
    pub settings: [Setting; INTERFACES],
    pub interface: usize,
    pub name: [u8; 255],
    pub len: usize,
    pub qtype: u16,
    pub id: u16,
    pub clock: u64,
    pub phase: u8,
    pub sends: u8,
    pub due: u64,
}

#[repr(C)]
pub struct LookupStep {
    pub clock: u64,
    pub due: u64,
    pub outcome: Outcome,
    pub to: Endpoint,
    pub phase: u8,
    pub sends: u8,
}

impl Lookup {
    /// As llmnr_lookup_take of the header.
    #[inline(always)]
    pub fn take(&mut self, step: &LookupStep) {
        self.clock = step.clock;
        self.phase = step.phase;
        self.sends = step.sends;
        self.due = step.due;
    }
}

extern "C" {
    pub fn llmnr_receive(
        settings: Settings,
        clock: u64,
        names: Names,
        table: *const u8,
        table_len: usize,
        interface: usize,
        from: Endpoint,
        to: Address,
        datagram: *const u8,
        datagram_len: usize,
        time: u64,
        id: u16,
        out: *mut u8,
        out_len: usize,
    ) -> Step;

    pub fn llmnr_tick(
        settings: Settings,
        clock: u64,
        names: Names,
        table: *const u8,
        table_len: usize,
        interface: usize,
        time: u64,
        id: u16,
        out: *mut u8,
        out_len: usize,
    ) -> Step;

    pub fn llmnr_lookup_receive(
        lookup: Lookup,
        from: Endpoint,
        to: Address,
        datagram: *const u8,
        datagram_len: usize,
        time: u64,
        id: u16,
        out: *mut u8,
        out_len: usize,
    ) -> LookupStep;
}

impl From<plain::Address> for Address {
    fn from(plain::Address { family, octets }: plain::Address) -> Address {
        Address { family, octets }
    }
}

impl From<plain::Endpoint> for Endpoint {
    fn from(plain::Endpoint { address, port }: plain::Endpoint) -> Endpoint {
        Endpoint { address: address.into(), port }
    }
}

impl From<Endpoint> for plain::Endpoint {
    fn from(Endpoint { address: Address { family, octets }, port }: Endpoint) -> plain::Endpoint {
        plain::Endpoint { address: plain::Address { family, octets }, port }
    }
}

impl From<plain::Setting> for Setting {
    fn from(plain::Setting { address, interval }: plain::Setting) -> Setting {
        Setting { family: address.family, address: address.octets, interval }
    }
}

impl From<Setting> for plain::Setting {
    fn from(Setting { family, address, interval }: Setting) -> plain::Setting {
        plain::Setting { address: plain::Address { family, octets: address }, interval }
    }
}

impl From<Told> for Outcome {
    fn from(Told { what, refusal, at, name, len, answers }: Told) -> Outcome {
        Outcome { what, refusal, answers, at, name, len }
    }
}

impl From<Outcome> for Told {
    fn from(Outcome { what, refusal, answers, at, name, len }: Outcome) -> Told {
        Told { what, refusal, at, name, len, answers }
    }
}

impl From<plain::NameState> for Name {
    fn from(state: plain::NameState) -> Name {
        let bare = |state| Name { state, sends: 0, id: 0, qtype: 0, qclass: 0, due: 0 };
        match state {
            plain::NameState::Off => bare(0),
            plain::NameState::Verifying { sends, id, due } => Name { sends, id, due, ..bare(1) },
            plain::NameState::Unique => bare(2),
            plain::NameState::Defending { id, qtype, qclass, due } => Name { id, qtype, qclass, due, ..bare(3) },
            plain::NameState::Stopped { until } => Name { due: until, ..bare(4) },
            plain::NameState::Shared => bare(5),
        }
    }
}

impl From<Name> for plain::NameState {
    fn from(Name { state, sends, id, qtype, qclass, due }: Name) -> plain::NameState {
        match state {
            1 => plain::NameState::Verifying { sends, id, due },
            2 => plain::NameState::Unique,
            3 => plain::NameState::Defending { id, qtype, qclass, due },
            4 => plain::NameState::Stopped { until: due },
            5 => plain::NameState::Shared,
            _ => plain::NameState::Off,
        }
    }
}

impl From<plain::Host> for Host {
    fn from(plain::Host { interfaces, clock }: plain::Host) -> Host {
        let settings = Settings { interfaces: interfaces.each_ref().map(|interface| interface.setting.into()) };
        Host {
            settings,
            interfaces: interfaces.map(|interface| Names { names: interface.names.map(Name::from) }),
            clock,
        }
    }
}

impl From<Host> for plain::Host {
    fn from(Host { settings, interfaces, clock }: Host) -> plain::Host {
        let interface = |number: usize| plain::Interface {
            setting: settings.interfaces[number].into(),
            names: interfaces[number].names.map(plain::NameState::from),
        };
        plain::Host { interfaces: std::array::from_fn(interface), clock }
    }
}

/// Number, sends and due time of a phase.
pub fn flat_phase(phase: plain::Phase) -> (u8, u8, u64) {
    match phase {
        plain::Phase::Ended => (0, 0, 0),
        plain::Phase::Asking { sends, due } => (1, sends, due),
        plain::Phase::Collecting { due } => (2, 0, due),
    }
}

impl From<plain::Lookup> for Lookup {
    fn from(lookup: plain::Lookup) -> Lookup {
        let plain::Lookup { settings, interface, name, len, qtype, id, clock, phase } = lookup;
        let settings = settings.map(Setting::from);
        let (phase, sends, due) = flat_phase(phase);
        Lookup { settings, interface, name, len, qtype, id, clock, phase, sends, due }
    }
}

impl From<Lookup> for plain::Lookup {
    fn from(lookup: Lookup) -> plain::Lookup {
        let Lookup { settings, interface, name, len, qtype, id, clock, phase, sends, due } = lookup;
        let settings = settings.map(plain::Setting::from);
        let phase = match phase {
            1 => plain::Phase::Asking { sends, due },
            2 => plain::Phase::Collecting { due },
            _ => plain::Phase::Ended,
        };
        plain::Lookup { settings, interface, name, len, qtype, id, clock, phase }
    }
}
