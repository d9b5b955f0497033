//! The comparison: both programs run on random call files, and every line must be the same to the letter. The first
//! file on which they differ is made small, shown and kept.

use crate::calls::{read, Call};
use crate::make::make;
use crate::options::Options;
use crate::program::run_program;
use crate::session;
use crate::shrink::shrink;
use crate::tally::Tally;
use crate::workers::Queue;
use std::fmt::Write;
use std::panic::{catch_unwind, set_hook};
use std::path::Path;
use std::sync::Mutex;
use std::time::Instant;

/// This program's lines for a file; an error if it does not come to an end with it.
pub fn own_lines(file: &[u8], fault: usize) -> Result<String, String> {
    catch_unwind(|| session::run(file, fault)).map_err(|_| "this program panics".to_string())
}

/// Number and text of the first line that differs; none if the texts are equal.
pub fn first_difference<'a>(one: &'a str, two: &'a str) -> Option<(usize, &'a str, &'a str)> {
    let (mut ones, mut twos) = (one.split('\n'), two.split('\n'));
    let mut number = 0;
    loop {
        match (ones.next(), twos.next()) {
            (None, None) => return None,
            (left, right) if left == right => number += 1,
            (left, right) => return Some((number, left.unwrap_or(""), right.unwrap_or(""))),
        }
    }
}

fn differ(program: &Path, file: &[u8]) -> bool {
    own_lines(file, 0).is_err() || run_program(program, file) != own_lines(file, 0)
}

/// Compares the files of all seeds that the queue hands out; gives the tally and this thread's seed that differs.
fn compare_files(options: &Options, queue: &Queue, differing: &Mutex<Vec<u64>>) -> Tally {
    let mut tally = Tally::default();
    while let Some(seed) = queue.next() {
        let file = make(seed, options.calls);
        match (own_lines(&file, 0), run_program(&options.program, &file)) {
            (Ok(own), Ok(other)) if own == other => tally.add(&file, &own),
            _ => {
                queue.stop();
                if let Ok(mut seeds) = differing.lock() {
                    seeds.push(seed);
                }
            }
        }
        queue.finish_one();
    }
    tally
}

fn hexadecimal(octets: &[u8]) -> String {
    octets.iter().fold(String::new(), |mut text, octet| {
        let _ = write!(text, "{octet:02x}");
        text
    })
}

/// The entry in hexadecimal and in readable form, the octets of datagrams, tables and names in hexadecimal too.
pub fn describe(number: usize, call: &Call) -> String {
    let mut readable = format!("{call:?}");
    if let Call::Table(octets)
    | Call::Datagram { octets, .. }
    | Call::Answer { octets, .. }
    | Call::Ask { name: octets, .. }
    | Call::Name { octets, .. } = call
    {
        readable = readable.replace(&format!("{octets:?}"), &hexadecimal(octets));
    }
    format!("  {number} {}\n    {readable}\n", hexadecimal(&call.encode()))
}

/// Both programs' lines about the first one that differs, and the entries of the file.
fn show(program: &Path, file: &[u8]) -> String {
    let mut text = String::new();
    match (own_lines(file, 0), run_program(program, file)) {
        (Ok(own), Ok(other)) => {
            let difference = first_difference(&own, &other);
            let (number, mine, theirs) = difference.unwrap_or((0, "no difference any more", ""));
            for line in own.lines().take(number).skip(number.saturating_sub(4)) {
                let _ = writeln!(text, "  both:          {line}");
            }
            let _ = writeln!(text, "  this program:  {mine}\n  the other one: {theirs}");
        }
        (own, other) => {
            let state = |lines: Result<String, String>| lines.map_or_else(|error| error, |_| "ends well".to_string());
            let _ = writeln!(text, "  this program:  {}\n  the other one: {}", state(own), state(other));
        }
    }
    let (calls, end) = read(file);
    text.push_str("entries, in hexadecimal and as read:\n");
    for (number, call) in calls.iter().enumerate() {
        text.push_str(&describe(number, call));
    }
    if let Some(end) = end {
        let rest = &file[end.at.min(file.len())..];
        let _ = writeln!(text, "  then {end:?} at {}", hexadecimal(&rest[..rest.len().min(200)]));
    }
    text
}

/// Makes the file of the seed small, shows it and keeps it.
fn report(options: &Options, seed: u64) {
    let file = make(seed, options.calls);
    println!("difference on the file of seed {seed} ({} octets):", file.len());
    // If this program panics on the file, it does so on many smaller ones: once is enough to read of it.
    set_hook(Box::new(|_| {}));
    let small = shrink(&file, &mut |file| differ(&options.program, file));
    println!("made small to {} octets:\n{}", small.len(), show(&options.program, &small));
    let path = options.keep.join(format!("seed-{seed}.calls"));
    let kept = std::fs::create_dir_all(&options.keep).and_then(|()| std::fs::write(&path, &small));
    match kept {
        Ok(()) => println!("kept as {}", path.display()),
        Err(error) => println!("not kept as {}: {error}", path.display()),
    }
}

/// The command; 0 if no line differs and the tally is as expected.
pub fn compare(options: &Options) -> i32 {
    let begin = Instant::now();
    let queue = Queue::new(options.from, options.files);
    let differing = Mutex::new(Vec::new());
    let tallies = queue.work(options.jobs, "no difference", || compare_files(options, &queue, &differing));
    let complete = tallies.len() == options.jobs;
    let mut tally = Tally::default();
    tallies.into_iter().for_each(|part| tally.merge(part));
    let seconds = begin.elapsed().as_secs_f64();
    println!("{} files from seed {} compared in {seconds:.1} s", queue.done(), options.from);
    if let Some(seed) = differing.into_inner().ok().and_then(|seeds| seeds.into_iter().min()) {
        report(options, seed);
        return 1;
    }
    print!("{}", tally.table());
    let faults = if options.judge_tally { tally.faults() } else { Vec::new() };
    faults.iter().for_each(|fault| println!("{fault}"));
    if !complete {
        println!("a thread did not come to its end");
    }
    if complete && faults.is_empty() {
        println!("no difference");
        return 0;
    }
    1
}

#[cfg(test)]
mod tests {
    use super::*;

    #[test]
    fn first_differences_are_found() {
        assert_eq!(first_difference("a\nb\n", "a\nb\n"), None);
        assert_eq!(first_difference("a\nb\n", "a\nc\n"), Some((1, "b", "c")));
        assert_eq!(first_difference("a\n", "a\nc\n"), Some((1, "", "c")));
        assert_eq!(first_difference("a\n", "a"), Some((1, "", "")));
    }

    #[test]
    fn another_program_that_prints_other_lines_differs() {
        let file = make(1, 20);
        assert!(differ(Path::new("/bin/cat"), &file) && differ(Path::new("/bin/false"), &file));
    }
}
