//! Situations in two call files, which differ only in the order of the two calls of each situation, and whether their
//! lines differ in more than that.

use crate::calls::{Call, LONGEST_FILE};
use crate::compare::{first_difference, own_lines};
use crate::faults::{self, Fault};
use crate::make::situations::Situation;
use crate::program::run_program;
use std::path::Path;

/// The calls of a situation, the two in their order or swapped.
pub fn calls(situation: &Situation, swapped: bool) -> impl Iterator<Item = &Call> {
    let [one, other] = &situation.pair;
    let pair = if swapped { [other, one] } else { [one, other] };
    situation.before.iter().chain(pair).chain(&situation.after)
}

/// The two call files. Each situation begins with a table and a set-up, so that it does not see those before it.
pub fn files(situations: &[Situation]) -> [Vec<u8>; 2] {
    [false, true].map(|swapped| {
        let calls = situations.iter().flat_map(|situation| calls(situation, swapped));
        calls.flat_map(Call::encode).collect()
    })
}

/// The lines without their numbers.
fn unnumbered(text: &str) -> Vec<&str> {
    text.lines().map(|line| line.split_once(' ').map_or(line, |(_, rest)| rest)).collect()
}

/// The lines of one situation by the calls as they stand in it: those of a swapped pair are swapped back.
pub fn lines_of<'a>(situation: &Situation, text: &'a str, swapped: bool) -> Vec<&'a str> {
    let mut lines = unnumbered(text);
    let pair = situation.before.len();
    if swapped && lines.len() > pair + 1 {
        lines.swap(pair, pair + 1);
    }
    lines
}

/// The places of the situations in which the order of the two calls matters, by the lines for both files.
fn differing(situations: &[Situation], texts: &[String; 2]) -> Vec<usize> {
    let [ones, others] = [unnumbered(&texts[0]), unnumbered(&texts[1])];
    let mut begin = 0;
    let mut found = Vec::new();
    for (place, situation) in situations.iter().enumerate() {
        let pair = begin + situation.before.len();
        let end = pair + 2 + situation.after.len();
        let same = match (ones.get(begin..end), others.get(begin..end)) {
            (Some(_), Some(_)) => {
                let ends = ones[begin..pair] == others[begin..pair] && ones[pair + 2..end] == others[pair + 2..end];
                ends && ones[pair] == others[pair + 1] && ones[pair + 1] == others[pair]
            }
            _ => false,
        };
        if !same {
            found.push(place);
        }
        begin = end;
    }
    found
}

/// The places of the situations in which the order matters to this program, with a planted fault.
pub fn differing_by_fault(situations: &[Situation], fault: Fault) -> Result<Vec<usize>, String> {
    let [one, other] = files(situations).map(|file| own_lines(&file, fault));
    Ok(differing(situations, &[one?, other?]))
}

/// The same for the other program; an error if its lines are not those of this one.
pub fn differing_through(program: &Path, situations: &[Situation]) -> Result<Vec<usize>, String> {
    let files = files(situations);
    if files[0].len() > LONGEST_FILE && situations.len() > 1 {
        return in_halves(program, situations);
    }
    let [one, other] = files.map(|file| equal_lines(program, &file));
    Ok(differing(situations, &[one?, other?]))
}

fn in_halves(program: &Path, situations: &[Situation]) -> Result<Vec<usize>, String> {
    let (ones, others) = situations.split_at(situations.len() / 2);
    let mut found = differing_through(program, ones)?;
    found.extend(differing_through(program, others)?.into_iter().map(|place| place + ones.len()));
    Ok(found)
}

/// The lines that both programs print for a file.
fn equal_lines(program: &Path, file: &[u8]) -> Result<String, String> {
    let own = own_lines(file, faults::NONE)?;
    let other = run_program(program, file)?;
    match first_difference(&own, &other) {
        None => Ok(other),
        Some((number, _, _)) => Err(format!("the two programs differ in line {number}")),
    }
}

#[cfg(test)]
mod tests {
    use super::*;
    use crate::make::situations::{situation, Wish};
    use crate::session;

    #[test]
    fn only_the_two_lines_may_change_places() {
        let situations: Vec<Situation> = (0..3).map(|seed| situation(seed, Wish::TwoInterfaces)).collect();
        let [one, other] = files(&situations).map(|file| session::run(&file, faults::NONE));
        assert!(differing(&situations, &[one.clone(), other.clone()]).is_empty());
        assert_eq!(differing(&situations, &[one.clone(), one.clone()]), [0, 1, 2]);
        let cut = other.trim_end().rsplit_once('\n').map(|(lines, _)| lines.to_string());
        assert_eq!(differing(&situations, &[one, cut.unwrap_or_default()]), [2]);
    }

    #[test]
    fn lines_stand_as_the_calls_do() {
        let made = situation(4, Wish::TwoInterfaces);
        let texts = files(std::slice::from_ref(&made)).map(|file| session::run(&file, faults::NONE));
        let lines = lines_of(&made, &texts[0], false);
        assert_eq!(lines.len(), calls(&made, true).count());
        assert_eq!(lines, lines_of(&made, &texts[1], true));
        assert_ne!(lines, lines_of(&made, &texts[1], false));
    }

    #[test]
    fn another_program_that_prints_other_lines_is_no_comparison() {
        let made = situation(1, Wish::TwoInterfaces);
        assert!(differing_through(Path::new("/bin/cat"), std::slice::from_ref(&made)).is_err());
    }
}
