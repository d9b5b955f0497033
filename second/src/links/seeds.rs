//! Runs of many seeds on several threads.

use std::sync::atomic::{AtomicU64, Ordering};
use std::sync::mpsc::channel;
use std::thread::scope;
use std::time::{Duration, Instant};

/// Gives the result of each seed to `collect`, in the order of arrival, with a progress line now and then.
pub fn each_seed<T: Send>(
    what: &str,
    (from, runs, jobs): (u64, u64, usize),
    work: impl Fn(u64) -> T + Sync,
    mut collect: impl FnMut(T),
) {
    let (began, next) = (Instant::now(), AtomicU64::new(0));
    let (sender, receiver) = channel();
    scope(|threads| {
        for _ in 0..jobs {
            let (sender, next, work) = (sender.clone(), &next, &work);
            threads.spawn(move || loop {
                let number = next.fetch_add(1, Ordering::Relaxed);
                if number >= runs || sender.send(work(from.wrapping_add(number))).is_err() {
                    return;
                }
            });
        }
        drop(sender);
        let mut shown = Instant::now();
        for (done, result) in receiver.into_iter().enumerate() {
            collect(result);
            if shown.elapsed() >= Duration::from_secs(5) {
                eprintln!("{what}: {} of {runs} runs after {} s", done + 1, began.elapsed().as_secs());
                shown = Instant::now();
            }
        }
    });
}
