//! The two ways to compare the names of a case, and what a comparison costs: time and stack.

use crate::cases::{Case, Place};
use bench::stack::used;
use std::hint::black_box;
use std::time::{Duration, Instant};

pub const ROUNDS: usize = 201;
/// How long the calls of one round take, about.
const ROUND: Duration = Duration::from_micros(50);

/// Two slices, each as its pointer and its length and with an offset behind it.
type Compare = unsafe extern "C" fn(*const u8, usize, usize, *const u8, usize, usize) -> bool;

extern "C" {
    fn names_expanded(s: *const u8, s_len: usize, p: usize, t: *const u8, t_len: usize, q: usize) -> bool;
    fn names_side_by_side(s: *const u8, s_len: usize, p: usize, t: *const u8, t_len: usize, q: usize) -> bool;
}

pub struct Way {
    pub title: &'static str,
    compare: Compare,
}

pub const WAYS: [Way; 2] =
    [Way { title: "expanded", compare: names_expanded }, Way { title: "side by side", compare: names_side_by_side }];

impl Way {
    #[inline(always)]
    fn same(&self, [a, b]: &[Place; 2]) -> bool {
        let (s, t) = (&a.message, &b.message);
        // Both slices live longer than the call, which keeps nothing of them.
        unsafe { (self.compare)(s.as_ptr(), s.len(), a.at, t.as_ptr(), t.len(), b.at) }
    }

    /// How long so many comparisons take.
    fn run(&self, case: &Case, calls: u32) -> Duration {
        let begin = Instant::now();
        for _ in 0..calls {
            black_box(self.same(black_box(&case.places)));
        }
        begin.elapsed()
    }

    /// Octets of stack that a comparison uses.
    pub fn stack(&self, case: &Case) -> Option<usize> {
        used(|| {
            black_box(self.same(&case.places));
        })
    }
}

/// Nanoseconds of a comparison in each way, the median of all rounds; an error if one of them gives a wrong answer.
pub fn measure(case: &Case) -> Result<[f64; WAYS.len()], String> {
    if let Some(way) = WAYS.iter().find(|way| way.same(&case.places) != case.same) {
        return Err(format!("{}, letters {}: {} gives {}", case.title, case.letters, way.title, !case.same));
    }
    let calls = calls_of_a_round(case);
    let mut times = [const { Vec::new() }; WAYS.len()];
    for round in 0..ROUNDS {
        for turn in 0..WAYS.len() {
            let number = (round + turn) % WAYS.len();
            times[number].push(WAYS[number].run(case, calls).as_nanos() as f64 / f64::from(calls));
        }
    }
    Ok(times.map(median))
}

fn median(mut times: Vec<f64>) -> f64 {
    times.sort_by(f64::total_cmp);
    times[times.len() / 2]
}

/// So many comparisons that the slower way needs about the time of a round.
fn calls_of_a_round(case: &Case) -> u32 {
    let slower = WAYS.iter().map(|way| way.run(case, 1_000)).max().unwrap_or(ROUND);
    (ROUND.as_nanos() * 1_000 / slower.as_nanos().max(1)).clamp(1, 100_000) as u32
}
