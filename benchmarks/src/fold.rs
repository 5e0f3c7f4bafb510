//! The fold of a long text into its fingerprint, against plain loops.

use crate::plain;
use crate::timing::{Random, median, timed};
use vault::Fingerprint;

const LENGTH: usize = 64 << 20;

const RUNS: usize = 9;

/// Seconds of one run.
struct Times {
    library: f64,
    remainder: f64,
    shifts: f64,
}

pub fn run() {
    let text = Random(1).text(LENGTH);
    let runs: Vec<Times> = (0..RUNS).map(|_| times(&text)).collect();
    println!("fold of 64 MiB, medians of {RUNS} runs");
    print_line("this library", &runs, |run| run.library);
    print_line("plain loop, reduced by %", &runs, |run| run.remainder);
    print_line("plain loop, reduced by shifts", &runs, |run| run.shifts);
}

fn times(text: &[u8]) -> Times {
    let (library, told) = timed(|| Fingerprint::of(text));
    let (remainder, expected) = timed(|| plain::fingerprint(text));
    assert_eq!(told.as_bytes(), &expected);
    let (shifts, expected) = timed(|| plain::fingerprint_by_shifts(text));
    assert_eq!(told.as_bytes(), &expected);
    Times {
        library: library.as_secs_f64(),
        remainder: remainder.as_secs_f64(),
        shifts: shifts.as_secs_f64(),
    }
}

fn print_line(name: &str, runs: &[Times], time: impl Fn(&Times) -> f64) {
    let milliseconds = median(runs, &time) * 1e3;
    let ratio = median(runs, |run| run.library / time(run));
    println!("  {name:30} {milliseconds:7.1} ms   library / this {ratio:.2}");
}
