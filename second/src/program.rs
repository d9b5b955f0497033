//! Running the other program on a call file, with a time limit.

use std::io::{Read, Write};
use std::path::Path;
use std::process::{Child, Command, ExitStatus, Stdio};
use std::sync::mpsc;
use std::thread;
use std::time::{Duration, Instant};

/// A program that has not ended after this long is taken to hang.
const TIME_LIMIT: Duration = Duration::from_secs(20);

/// What the program prints for the file; an error if it cannot be run, hangs or does not end with code 0.
pub fn run_program(program: &Path, file: &[u8]) -> Result<String, String> {
    run_within(program, file, TIME_LIMIT)
}

fn run_within(program: &Path, file: &[u8], limit: Duration) -> Result<String, String> {
    let begin = Instant::now();
    let mut child = Command::new(program)
        .stdin(Stdio::piped())
        .stdout(Stdio::piped())
        .stderr(Stdio::null())
        .spawn()
        .map_err(|error| format!("{} cannot be run: {error}", program.display()))?;
    let (Some(mut input), Some(mut output)) = (child.stdin.take(), child.stdout.take()) else {
        return Err("the program's input and output are missing".to_string());
    };
    let (sender, receiver) = mpsc::channel();
    let (text, status) = thread::scope(|scope| {
        // A program that ends early leaves the rest of its input unread: no error by itself.
        scope.spawn(move || drop(input.write_all(file)));
        scope.spawn(move || {
            let mut text = Vec::new();
            let read = output.read_to_end(&mut text);
            drop(sender.send(read.map(|_| text)));
        });
        let text = receiver.recv_timeout(limit);
        (text, end_of(&mut child, begin + limit))
    });
    match (text, status) {
        (Ok(Ok(text)), Some(status)) if status.success() => {
            String::from_utf8(text).map_err(|_| "the program printed octets that are no text".to_string())
        }
        (_, Some(status)) => Err(format!("the program ended with {status}")),
        (_, None) => Err(format!("the program hangs: no end after {} s", limit.as_secs())),
    }
}

/// How the program ended; none if it had to be stopped because the time was up.
fn end_of(child: &mut Child, deadline: Instant) -> Option<ExitStatus> {
    loop {
        if let Ok(Some(status)) = child.try_wait() {
            return Some(status);
        }
        if Instant::now() >= deadline {
            drop(child.kill());
            drop(child.wait());
            return None;
        }
        thread::sleep(Duration::from_micros(100));
    }
}

#[cfg(test)]
mod tests {
    use super::*;

    #[test]
    fn output_exit_codes_and_time_limit() {
        assert_eq!(run_program(Path::new("/bin/cat"), b"two\nlines\n"), Ok("two\nlines\n".to_string()));
        assert!(run_program(Path::new("/bin/false"), &[0; 200_000]).is_err());
        assert!(run_program(Path::new("/no/such/program"), b"").is_err());
        let hang = run_within(Path::new("/usr/bin/yes"), b"", Duration::from_millis(200));
        assert!(hang.is_err_and(|text| text.contains("hangs")));
    }
}
