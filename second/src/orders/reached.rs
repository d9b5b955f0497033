//! What the pairs of calls have reached: their kinds and outcomes, and the states, interfaces and times that they were
//! made in.

use crate::calls::{Call, Setting};
use crate::interfaces::is_used;
use crate::lines::Outcome;
use crate::make::situations::Situation;
use crate::rows::{Expected, Rows};

const LATEST: u64 = (1 << 48) - 1;
const ENDS: &str = "both-accepted one-refused both-refused both-change-a-name";
const STATES: &str = "off sent-1 sent-2 sent-3 unique defending stopped shared";

pub const EXPECTED: Expected = &[
    ("start, start", ENDS),
    ("start, datagram", ENDS),
    ("start, tick", ENDS),
    ("datagram, start", ENDS),
    ("datagram, datagram", ENDS),
    ("datagram, tick", ENDS),
    ("tick, start", ENDS),
    ("tick, datagram", ENDS),
    ("tick, tick", ENDS),
    ("outcomes", "first-query shared reply defence stopped kept repeat unique quiet"),
    ("refused with", "1 2 3 4 5 6 7 8 9 10 11 12 13 14 15 16 19 21"),
    ("times", "before-the-clock the-clock's later too-late due-on-one due-on-both"),
    ("restarts", "too-soon too-soon-by-1 at-the-end later both-too-soon both-in-time only-one-in-time"),
    ("interfaces", "4-and-4 4-and-6 6-and-6 one-unused both-unused one-above-3 both-above-3"),
    ("tables", "good bad"),
    ("off here, there", STATES),
    ("sent-1 here, there", STATES),
    ("sent-2 here, there", STATES),
    ("sent-3 here, there", STATES),
    ("unique here, there", STATES),
    ("defending here, there", STATES),
    ("stopped here, there", STATES),
    ("shared here, there", STATES),
];

fn kind(call: &Call) -> &'static str {
    match call {
        Call::Start { .. } => "start",
        Call::Datagram { .. } => "datagram",
        _ => "tick",
    }
}

/// The row of this name, in two parts.
fn row(one: &str, other: &str) -> &'static str {
    let named = |row: &&str| row.strip_prefix(one).and_then(|rest| rest.strip_suffix(other)) == Some(", ");
    EXPECTED.iter().map(|(row, _)| *row).find(named).unwrap_or("unknown")
}

fn is_refused(outcome: &Outcome) -> bool {
    matches!(outcome, Outcome::Refused { .. })
}

/// The word that is counted, and whether a name's state changes.
fn outcome_word(call: &Call, outcome: &Outcome) -> (&'static str, bool) {
    match (outcome, kind(call)) {
        (Outcome::Query { .. }, "start") => ("first-query", true),
        (Outcome::Query { .. }, "datagram") => ("defence", true),
        (Outcome::Query { .. }, _) => ("repeat", true),
        (Outcome::Shared { .. }, _) => ("shared", true),
        (Outcome::Stopped { .. }, _) => ("stopped", true),
        (Outcome::Unique { .. }, _) => ("unique", true),
        (Outcome::Reply { .. }, _) => ("reply", false),
        (Outcome::Kept { .. }, _) => ("kept", false),
        _ => ("quiet", false),
    }
}

/// Counts the pair of a situation on two interfaces at one time.
pub fn count(rows: &mut Rows, situation: &Situation) {
    let Situation { pair, outcomes, facts, .. } = situation;
    let kinds = row(kind(&pair[0]), kind(&pair[1]));
    let refused = outcomes.iter().filter(|outcome| is_refused(outcome)).count();
    rows.count(kinds, ["both-accepted", "one-refused", "both-refused"][refused]);
    let mut changes = 0;
    for (call, outcome) in pair.iter().zip(outcomes) {
        if let Outcome::Refused { no, .. } = outcome {
            rows.count("refused with", &no.to_string());
            continue;
        }
        let (word, change) = outcome_word(call, outcome);
        rows.count("outcomes", word);
        changes += usize::from(change);
    }
    if changes == 2 {
        rows.count(kinds, "both-change-a-name");
    }
    rows.count("tables", if facts.table_good { "good" } else { "bad" });
    count_times(rows, situation);
    count_restarts(rows, situation);
    count_interfaces(rows, situation);
    if let Some([here, there]) = facts.states {
        rows.count(row(&format!("{here} here"), "there"), there);
    }
}

fn count_times(rows: &mut Rows, situation: &Situation) {
    let (clock, time) = (situation.facts.clock, situation.pair[0].prefix().map_or(0, |prefix| prefix.time));
    rows.count(
        "times",
        match time {
            _ if time > LATEST => "too-late",
            _ if time < clock => "before-the-clock",
            _ if time == clock => "the-clock's",
            _ => "later",
        },
    );
    match situation.facts.due {
        [true, true] => rows.count("times", "due-on-both"),
        [false, false] => {}
        _ => rows.count("times", "due-on-one"),
    }
}

/// Starts of names that have stopped: how their time lies to the end of the wait.
fn count_restarts(rows: &mut Rows, situation: &Situation) {
    let time = situation.pair[0].prefix().map_or(0, |prefix| prefix.time);
    for until in situation.facts.untils.into_iter().flatten() {
        rows.count(
            "restarts",
            match until {
                _ if until == time => "at-the-end",
                _ if until < time => "later",
                _ if until - 1 == time => "too-soon-by-1",
                _ => "too-soon",
            },
        );
    }
    if let [Some(one), Some(other)] = situation.facts.untils {
        let in_time = [one, other].iter().filter(|until| **until <= time).count();
        rows.count("restarts", ["both-too-soon", "only-one-in-time", "both-in-time"][in_time]);
    }
}

fn count_interfaces(rows: &mut Rows, situation: &Situation) {
    let numbers = situation.pair.each_ref().map(|call| call.prefix().map_or(0, |prefix| usize::from(prefix.interface)));
    let settings = numbers.map(|number| situation.facts.settings.get(number));
    let unused = |setting: &Option<&Setting>| setting.is_some_and(|setting| !is_used(setting));
    let families = settings.map(|setting| setting.filter(|setting| is_used(setting)).map(|s| s.address.family));
    match families {
        [Some(4), Some(4)] => rows.count("interfaces", "4-and-4"),
        [Some(6), Some(6)] => rows.count("interfaces", "6-and-6"),
        [Some(_), Some(_)] => rows.count("interfaces", "4-and-6"),
        _ => {}
    }
    for (count, words) in [
        (numbers.iter().filter(|number| **number > 3).count(), ["one-above-3", "both-above-3"]),
        (settings.iter().filter(|setting| unused(setting)).count(), ["one-unused", "both-unused"]),
    ] {
        if count > 0 {
            rows.count("interfaces", words[count - 1]);
        }
    }
}

#[cfg(test)]
mod tests {
    use super::*;
    use crate::make::situations::{situation, Wish};

    #[test]
    fn all_that_is_counted_is_expected() {
        let mut rows = Rows::new(EXPECTED);
        (0..400).for_each(|seed| count(&mut rows, &situation(seed, Wish::TwoInterfaces)));
        assert!(rows.faults().iter().all(|fault| fault.starts_with("never reached: ")), "{:?}", rows.faults());
        assert_eq!(rows.of("tables", "good") + rows.of("tables", "bad"), 400);
        assert!(rows.of("datagram, tick", "both-change-a-name") > 0);
    }

    #[test]
    fn rows_are_found_by_their_parts() {
        assert_eq!(row("tick", "start"), "tick, start");
        assert_eq!(row("sent-3 here", "there"), "sent-3 here, there");
    }
}
