//! What is kept between the entries of a call file, and the call that each entry makes.

use crate::entries::{Entry, Prefix, Settings};
use crate::lines;
use bench::plain::state::{Arrival, Asked, Call, Endpoint, Host, Lookup, LookupOutcome, Outcome};
use bench::plain::{by_mut, by_value};
use std::mem::take;

const MOST_ROOM: usize = 65_536;

#[derive(Clone, Copy)]
pub enum Form {
    Value,
    Mut,
}

/// Makes a call that takes a state and gives the next one.
fn through<S: Default, O>(state: &mut S, call: impl FnOnce(S) -> (S, O, Endpoint)) -> (O, Endpoint) {
    let (next, outcome, to) = call(take(state));
    *state = next;
    (outcome, to)
}

pub struct Session<'a> {
    form: Form,
    table: &'a [u8],
    host: Host,
    settings: Settings,
    lookups: [Lookup; 4],
    buffer: Vec<u8>,
}

impl<'a> Session<'a> {
    pub fn new(form: Form) -> Session<'a> {
        let (host, settings) = (Host::default(), Settings::default());
        Session { form, table: &[], host, settings, lookups: Default::default(), buffer: vec![0; MOST_ROOM] }
    }

    /// Makes the call of an entry and writes its line.
    pub fn take(&mut self, text: &mut String, number: usize, entry: &Entry<'a>) {
        match entry {
            Entry::Table(table) => {
                self.table = table;
                lines::table(text, number, table);
            }
            Entry::SetUp(prefix, settings) => self.set_up(text, number, prefix, settings),
            Entry::Start(prefix, name) => self.start(text, number, prefix, usize::from(*name)),
            Entry::Datagram(prefix, arrival) => self.receive(text, number, prefix, arrival),
            Entry::Tick(prefix) => self.tick(text, number, prefix),
            Entry::Settings(settings) => {
                self.settings = *settings;
                lines::settings(text, number);
            }
            Entry::Ask { prefix, slot, permitted, qtype, name } => {
                self.ask(text, number, prefix, *slot, (*permitted, *qtype, name));
            }
            Entry::Answer(prefix, slot, arrival) => self.answer(text, number, prefix, *slot, arrival),
            Entry::AskTick(prefix, slot) => self.ask_tick(text, number, prefix, *slot),
            Entry::Name(offset, message) => lines::name(text, number, message, usize::from(*offset)),
        }
    }

    fn call(&self, prefix: &Prefix) -> Call<'a> {
        Call { table: self.table, interface: usize::from(prefix.interface), time: prefix.time, id: prefix.id }
    }

    /// The octets of the buffer that a call is lent, each A5.
    fn lend(&mut self, prefix: &Prefix) -> Vec<u8> {
        let mut lent = take(&mut self.buffer);
        lent.clear();
        lent.resize(usize::try_from(prefix.room).map_or(MOST_ROOM, |room| room.min(MOST_ROOM)), 0xA5);
        lent
    }

    fn set_up(&mut self, text: &mut String, number: usize, prefix: &Prefix, settings: &Settings) {
        let call = self.call(prefix);
        let outcome = match self.form {
            Form::Value => {
                let (host, outcome) = by_value::set_up(&call, *settings);
                self.host = host;
                outcome
            }
            Form::Mut => by_mut::set_up(&mut self.host, &call, settings),
        };
        self.settings = self.host.interfaces.each_ref().map(|interface| interface.setting);
        lines::called(text, number, "set-up", prefix);
        lines::outcome(text, &outcome, &Endpoint::default(), &[]);
    }

    fn start(&mut self, text: &mut String, number: usize, prefix: &Prefix, name: usize) {
        let (call, mut out) = (self.call(prefix), self.lend(prefix));
        let told = match self.form {
            Form::Value => through(&mut self.host, |host| by_value::start(host, &call, name, &mut out)),
            Form::Mut => by_mut::start(&mut self.host, &call, name, &mut out),
        };
        self.tell(text, number, "start", prefix, told, out);
    }

    fn receive(&mut self, text: &mut String, number: usize, prefix: &Prefix, arrival: &Arrival) {
        let (call, mut out) = (self.call(prefix), self.lend(prefix));
        let told = match self.form {
            Form::Value => through(&mut self.host, |host| by_value::receive(host, &call, arrival, &mut out)),
            Form::Mut => by_mut::receive(&mut self.host, &call, arrival, &mut out),
        };
        self.tell(text, number, "datagram", prefix, told, out);
    }

    fn tick(&mut self, text: &mut String, number: usize, prefix: &Prefix) {
        let (call, mut out) = (self.call(prefix), self.lend(prefix));
        let told = match self.form {
            Form::Value => through(&mut self.host, |host| by_value::tick(host, &call, &mut out)),
            Form::Mut => by_mut::tick(&mut self.host, &call, &mut out),
        };
        self.tell(text, number, "tick", prefix, told, out);
    }

    fn tell(
        &mut self,
        text: &mut String,
        number: usize,
        word: &str,
        prefix: &Prefix,
        (outcome, to): (Outcome, Endpoint),
        out: Vec<u8>,
    ) {
        lines::called(text, number, word, prefix);
        lines::outcome(text, &outcome, &to, &out);
        lines::unwritten(text, lines::written(&outcome), &out);
        self.buffer = out;
    }

    fn ask(&mut self, text: &mut String, number: usize, prefix: &Prefix, slot: usize, asked: (bool, u16, &[u8])) {
        let (mut out, settings, (permitted, qtype, name)) = (self.lend(prefix), self.settings, asked);
        let interface = usize::from(prefix.interface);
        let asked = Asked { settings: &settings, interface, name, permitted, qtype, time: prefix.time, id: prefix.id };
        let lookup = &mut self.lookups[slot];
        let told = match self.form {
            Form::Value => through(lookup, |_| by_value::start_lookup(&asked, &mut out)),
            Form::Mut => by_mut::start_lookup(lookup, &asked, &mut out),
        };
        self.tell_lookup(text, number, "ask", prefix, told, out);
    }

    fn answer(&mut self, text: &mut String, number: usize, prefix: &Prefix, slot: usize, arrival: &Arrival) {
        let mut out = self.lend(prefix);
        let lookup = &mut self.lookups[slot];
        let told = match self.form {
            Form::Value => through(lookup, |lookup| by_value::receive_lookup(lookup, arrival, prefix.time, &mut out)),
            Form::Mut => by_mut::receive_lookup(lookup, arrival, prefix.time, &mut out),
        };
        self.tell_lookup(text, number, "answer", prefix, told, out);
    }

    fn ask_tick(&mut self, text: &mut String, number: usize, prefix: &Prefix, slot: usize) {
        let mut out = self.lend(prefix);
        let lookup = &mut self.lookups[slot];
        let told = match self.form {
            Form::Value => through(lookup, |lookup| by_value::tick_lookup(lookup, prefix.time, &mut out)),
            Form::Mut => by_mut::tick_lookup(lookup, prefix.time, &mut out),
        };
        self.tell_lookup(text, number, "ask-tick", prefix, told, out);
    }

    fn tell_lookup(
        &mut self,
        text: &mut String,
        number: usize,
        word: &str,
        prefix: &Prefix,
        (outcome, to): (LookupOutcome, Endpoint),
        out: Vec<u8>,
    ) {
        lines::called(text, number, word, prefix);
        lines::lookup_outcome(text, &outcome, &to, &out);
        let written = if let LookupOutcome::Query { len } = outcome { len } else { 0 };
        lines::unwritten(text, written, &out);
        self.buffer = out;
    }
}
