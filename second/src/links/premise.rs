//! The premises of the claim about a link that can be broken on purpose.

#[derive(Clone, Copy, PartialEq, Eq, Debug)]
pub enum Premise {
    OneInterval,
    ClockNeverBack,
    DifferentAddresses,
    TickWhenDue,
}

pub const PREMISES: [Premise; 4] =
    [Premise::OneInterval, Premise::ClockNeverBack, Premise::DifferentAddresses, Premise::TickWhenDue];

impl Premise {
    /// The premise as it is broken.
    pub fn broken(self) -> &'static str {
        match self {
            Premise::OneInterval => "two intervals on one link",
            Premise::ClockNeverBack => "the clock goes back",
            Premise::DifferentAddresses => "two hosts with one address",
            Premise::TickWhenDue => "a tick comes late",
        }
    }
}
