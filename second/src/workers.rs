//! Work on many files at once: the numbers of the files are handed out in order to one thread for each job.

use std::sync::atomic::{AtomicBool, AtomicU64, Ordering};
use std::sync::mpsc::{channel, RecvTimeoutError};
use std::thread;
use std::time::{Duration, Instant};

/// A line about the progress is printed this often.
const PROGRESS: Duration = Duration::from_secs(5);

pub struct Queue {
    from: u64,
    files: u64,
    next: AtomicU64,
    done: AtomicU64,
    stopped: AtomicBool,
}

impl Queue {
    pub fn new(from: u64, files: u64) -> Queue {
        let zero = || AtomicU64::new(0);
        Queue { from, files, next: zero(), done: zero(), stopped: AtomicBool::new(false) }
    }

    /// The next file's seed. Every seed below one that was handed out has been handed out before.
    pub fn next(&self) -> Option<u64> {
        if self.stopped.load(Ordering::SeqCst) {
            return None;
        }
        let number = self.next.fetch_add(1, Ordering::SeqCst);
        (number < self.files).then(|| self.from.wrapping_add(number))
    }

    pub fn finish_one(&self) {
        self.done.fetch_add(1, Ordering::SeqCst);
    }

    /// No more seeds are handed out; those that were are worked on to their end.
    pub fn stop(&self) {
        self.stopped.store(true, Ordering::SeqCst);
    }

    pub fn done(&self) -> u64 {
        self.done.load(Ordering::SeqCst)
    }

    /// Runs `work` in each of `jobs` threads and gives back what each returns, with a progress line now and then.
    pub fn work<T: Send>(&self, jobs: usize, note: &str, work: impl Fn() -> T + Sync) -> Vec<T> {
        let begin = Instant::now();
        let (sender, receiver) = channel::<()>();
        thread::scope(|scope| {
            let threads: Vec<_> = (0..jobs)
                .map(|_| {
                    let (sender, work) = (sender.clone(), &work);
                    scope.spawn(move || {
                        let result = work();
                        drop(sender);
                        result
                    })
                })
                .collect();
            drop(sender);
            // Nothing is ever sent: the channel closes when the last thread is through.
            while receiver.recv_timeout(PROGRESS) == Err(RecvTimeoutError::Timeout) {
                println!("{} of {} files, {} s, {note}", self.done(), self.files, begin.elapsed().as_secs());
            }
            threads.into_iter().filter_map(|thread| thread.join().ok()).collect()
        })
    }
}
