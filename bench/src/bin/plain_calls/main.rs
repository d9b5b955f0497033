//! Makes the calls of a call file with the plain responder, and prints a line for each entry. The format of files and
//! lines is that of the proved library's program `run_calls`.

mod entries;
mod lines;
mod session;

use session::{Form, Session};
use std::io::{Read, Write};
use std::process::ExitCode;

const USAGE: &str = "usage: plain_calls value|mut < FILE
  value  the state is passed and returned by value
  mut    the state stands behind &mut";
const LONGEST_FILE: usize = 262_144;

/// All lines of a call file.
fn run(file: &[u8], form: Form) -> String {
    let mut text = String::new();
    if file.len() > LONGEST_FILE {
        lines::end(&mut text, LONGEST_FILE, "long");
        return text;
    }
    let mut session = Session::new(form);
    let mut at = 0;
    for number in 0.. {
        if at == file.len() {
            break;
        }
        match entries::read(&file[at..]) {
            Ok((entry, length)) => {
                session.take(&mut text, number, &entry);
                at += length;
            }
            Err(why) => {
                lines::end(&mut text, at, why);
                break;
            }
        }
    }
    text
}

fn main() -> ExitCode {
    let words: Vec<String> = std::env::args().skip(1).collect();
    let form = match words.iter().map(String::as_str).collect::<Vec<_>>()[..] {
        ["value"] => Form::Value,
        ["mut"] => Form::Mut,
        _ => {
            eprintln!("{USAGE}");
            return ExitCode::from(2);
        }
    };
    let mut file = Vec::new();
    let read = std::io::stdin().read_to_end(&mut file);
    match read.and_then(|_| std::io::stdout().write_all(run(&file, form).as_bytes())) {
        Ok(()) => ExitCode::SUCCESS,
        Err(error) => {
            eprintln!("{error}");
            ExitCode::FAILURE
        }
    }
}
