//! The options of the commands that run two programs on many files.

use std::num::NonZero;
use std::path::PathBuf;
use std::thread::available_parallelism;

/// From this many files of this many calls on, each outcome must be reached.
pub const JUDGED_FILES: u64 = 2000;
pub const JUDGED_CALLS: usize = 300;

pub struct Options {
    pub program: PathBuf,
    pub from: u64,
    pub files: u64,
    pub calls: usize,
    pub jobs: usize,
    pub keep: PathBuf,
    pub judge_tally: bool,
}

impl Options {
    pub fn read(arguments: &[String]) -> Result<Options, String> {
        let mut options = Options {
            program: PathBuf::from("crates/run_calls/out/run_calls"),
            from: 0,
            files: JUDGED_FILES,
            calls: JUDGED_CALLS,
            jobs: available_parallelism().map_or(1, NonZero::get),
            keep: PathBuf::from("target/second"),
            judge_tally: true,
        };
        let mut words = arguments.iter();
        while let Some(word) = words.next() {
            if word == "--no-tally" {
                options.judge_tally = false;
                continue;
            }
            let value = words.next().ok_or(format!("{word}: unknown, or its value is missing"))?;
            let number = || value.parse::<u64>().map_err(|_| format!("{word} {value}: not a number"));
            match word.as_str() {
                "--program" => options.program = PathBuf::from(value),
                "--keep" => options.keep = PathBuf::from(value),
                "--from" => options.from = number()?,
                "--files" => options.files = number()?,
                "--calls" => options.calls = number()? as usize,
                "--jobs" => options.jobs = number()?.clamp(1, 256) as usize,
                _ => return Err(format!("{word}: unknown")),
            }
        }
        options.judge_tally &= options.files >= JUDGED_FILES && options.calls >= JUDGED_CALLS;
        Ok(options)
    }
}

/// The options of the commands that make so many things, each from a seed of its own, and hand them to the program.
pub struct Seeds {
    pub program: PathBuf,
    pub from: u64,
    pub count: u64,
    pub jobs: usize,
}

impl Seeds {
    /// `counted` is the option that tells how many, and `count` is how many without it.
    pub fn read(arguments: &[String], counted: &str, count: u64) -> Result<Seeds, String> {
        let jobs = available_parallelism().map_or(1, NonZero::get);
        let mut seeds = Seeds { program: PathBuf::from("crates/run_calls/out/run_calls"), from: 0, count, jobs };
        let mut rest = arguments.iter();
        while let Some(key) = rest.next() {
            let value = rest.next().ok_or(format!("{key} needs a value"))?;
            let number = || value.parse::<u64>().map_err(|_| format!("{key} needs a number, not {value}"));
            match key.as_str() {
                "--program" => seeds.program = PathBuf::from(value),
                "--from" => seeds.from = number()?,
                "--jobs" => seeds.jobs = number()?.clamp(1, 256) as usize,
                _ if key == counted => seeds.count = number()?,
                _ => return Err(format!("{key} is no option")),
            }
        }
        Ok(seeds)
    }
}

#[cfg(test)]
mod tests {
    use super::*;

    fn words(text: &str) -> Vec<String> {
        text.split_whitespace().map(String::from).collect()
    }

    fn read(text: &str) -> Result<Options, String> {
        Options::read(&words(text))
    }

    #[test]
    fn options_are_read() {
        assert!(read("").is_ok_and(|options| options.files == 2000 && options.judge_tally));
        assert!(read("--files 10 --from 7 --jobs 1").is_ok_and(|options| options.from == 7 && !options.judge_tally));
        assert!(read("--no-tally").is_ok_and(|options| !options.judge_tally));
        assert!(read("--files").is_err() && read("--files x").is_err() && read("files 1").is_err());
    }

    #[test]
    fn seeds_are_read() {
        let read = |text: &str| Seeds::read(&words(text), "--pairs", 9);
        assert!(read("").is_ok_and(|seeds| seeds.count == 9 && seeds.from == 0));
        assert!(read("--pairs 7 --from 5 --jobs 0").is_ok_and(|seeds| seeds.count == 7 && seeds.jobs == 1));
        assert!(read("--pairs").is_err() && read("--pairs x").is_err() && read("--runs 1").is_err());
    }
}
