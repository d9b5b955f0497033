//! A run through the other program: each host's calls as a call file, and the states as that program's lines tell them.

use super::host::{Host, State};
use super::link::Link;
use super::run::States;
use crate::lines::line;
use crate::program::run_program;
use std::path::Path;

/// Every line must equal ours, so that the other program's hosts sent and received just the same.
pub fn through_program(program: &Path, link: &Link) -> Result<States, String> {
    let mut states = States { random: Vec::new(), serial: None };
    for (place, host) in link.hosts.iter().enumerate() {
        let file: Vec<u8> = host.calls.iter().flat_map(|call| call.encode()).collect();
        let text = run_program(program, &file)?;
        let lines: Vec<&str> = text.lines().collect();
        same_lines(host, &lines).map_err(|why| format!("host {place}: {why}"))?;
        let told: Option<Vec<State>> = host.told.iter().map(|entry| state_of(lines[*entry])).collect();
        let told = told.ok_or(format!("host {place}: the state is not told"))?;
        states.random.push(told[0]);
        if let Some(state) = told.get(1) {
            states.serial.get_or_insert_default().push(*state);
        }
    }
    Ok(states)
}

fn same_lines(host: &Host, lines: &[&str]) -> Result<(), String> {
    for (number, (call, outcome)) in host.calls.iter().zip(&host.outcomes).enumerate() {
        let ours = line(number, call, outcome);
        let theirs = lines.get(number).copied().unwrap_or("no line");
        if theirs != ours {
            return Err(format!("the lines differ\n  ours   {ours}\n  theirs {theirs}"));
        }
    }
    if lines.len() == host.calls.len() {
        Ok(())
    } else {
        Err(format!("{} calls, but {} lines", host.calls.len(), lines.len()))
    }
}

/// The state that a printed line tells: refusal 12 or 13, or a reply, by the T bit in the third of its octets.
fn state_of(line: &str) -> Option<State> {
    let field = |key: &str| line.split(' ').find_map(|field| field.strip_prefix(key));
    if line.contains(" refused ") {
        return match field("no=")? {
            "12" => Some(State::Off),
            "13" => Some(State::Stopped),
            _ => None,
        };
    }
    let flags = u8::from_str_radix(field("hex=").filter(|_| line.contains(" reply "))?.get(4..6)?, 16).ok()?;
    Some(if flags & 1 == 1 { State::Checking } else { State::Holding })
}

#[cfg(test)]
mod tests {
    use super::{state_of, State};

    #[test]
    fn lines_tell_the_state() {
        let reply = |flags: &str| format!("7 datagram if=0 t=9 id=1 reply to=4/00/5355 len=24 hex=1234{flags}00");
        assert_eq!(state_of(&reply("80")), Some(State::Holding));
        assert_eq!(state_of(&reply("81")), Some(State::Checking));
        assert_eq!(state_of("7 datagram if=0 t=9 id=1 refused no=12"), Some(State::Off));
        assert_eq!(state_of("7 datagram if=0 t=9 id=1 refused no=13"), Some(State::Stopped));
        assert_eq!(state_of("7 datagram if=0 t=9 id=1 refused no=1"), None);
        assert_eq!(state_of("7 tick if=0 t=9 id=1 quiet"), None);
    }
}
