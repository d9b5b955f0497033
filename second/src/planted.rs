//! The proof of the comparison: with each planted fault switched on, this program must come to differ from the other
//! one on some file.

use crate::compare::{first_difference, own_lines};
use crate::faults::FAULTS;
use crate::make::make;
use crate::options::Options;
use crate::program::run_program;
use crate::workers::Queue;
use std::sync::Mutex;
use std::time::Instant;

/// The lowest seed whose file shows a fault, and the first line that does.
type Found = Option<(u64, usize)>;

/// The first line that shows the fault on this file.
fn shown(file: &[u8], fault: usize, right: &str) -> Option<usize> {
    match own_lines(file, fault) {
        Ok(lines) => first_difference(&lines, right).map(|(line, _, _)| line),
        Err(_) => Some(0),
    }
}

/// Tries the faults not yet found at a lower seed on each file; an error if the other program fails.
fn try_files(options: &Options, queue: &Queue, found: &Mutex<Vec<Found>>) -> Result<(), String> {
    while let Some(seed) = queue.next() {
        let file = make(seed, options.calls);
        let right = run_program(&options.program, &file).inspect_err(|_| queue.stop())?;
        for fault in 1..=FAULTS.len() {
            let earlier = |found: &Found| found.is_some_and(|(lower, _)| lower < seed);
            if found.lock().is_ok_and(|found| earlier(&found[fault - 1])) {
                continue;
            }
            let Some(line) = shown(&file, fault, &right) else { continue };
            if let Ok(mut found) = found.lock() {
                if !earlier(&found[fault - 1]) {
                    found[fault - 1] = Some((seed, line));
                }
            }
        }
        if found.lock().is_ok_and(|found| found.iter().all(Option::is_some)) {
            queue.stop();
        }
        queue.finish_one();
    }
    Ok(())
}

/// The command; 0 if every fault is found.
pub fn planted(options: &Options) -> i32 {
    let begin = Instant::now();
    let queue = Queue::new(options.from, options.files);
    let found = Mutex::new(vec![None; FAULTS.len()]);
    let results = queue.work(options.jobs, "some faults not found yet", || try_files(options, &queue, &found));
    let mut well = results.len() == options.jobs;
    for error in results.into_iter().filter_map(Result::err) {
        println!("{error}");
        well = false;
    }
    let found = found.into_inner().unwrap_or_default();
    for (number, (text, found)) in FAULTS.iter().zip(&found).enumerate() {
        let place = found.map_or("NOT FOUND".to_string(), |(seed, line)| format!("seed {seed}, line {line}"));
        println!("{:>3}  {place:<22} {text}", number + 1);
    }
    let count = found.iter().flatten().count();
    let seconds = begin.elapsed().as_secs_f64();
    println!("{count} of {} faults found in {} files, {seconds:.1} s", FAULTS.len(), queue.done());
    i32::from(!well || count < FAULTS.len())
}
