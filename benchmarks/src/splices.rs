//! Splices of eight bytes, each on the newest document, all documents kept.

use crate::timing::{Random, median, nanoseconds_each, timed};
use crate::{crope, measured, plain};
use std::hint::black_box;
use std::time::Duration;

/// What the shelf's splices write, as in `crates/measured`.
const STAMP: [u8; 8] = *b"gatsomev";

const LENGTHS: [usize; 6] = [1 << 10, 1 << 12, 1 << 14, 1 << 16, 1 << 18, 1 << 20];

/// No shelf has room for more documents.
const MOST_SPLICES: usize = 4093;

/// In one run at least so many splices are made, on one fresh shelf after the other.
const SPLICES: usize = 8000;

const RUNS: usize = 41;

/// How many splices copy and fold anew: each costs the whole length, wherever it is.
const COPIES: usize = 8;

/// A text, and the places of the splices.
struct Case {
    text: Vec<u8>,
    places: Vec<usize>,
}

/// The time of one splice of each kind in one run, in nanoseconds.
struct Times {
    shelf: f64,
    crope: f64,
    copy: f64,
}

pub fn run() {
    println!("splices of eight bytes, nanoseconds each, medians of {RUNS} runs");
    println!("   length splices      shelf      crope  copy+fold  shelf/crope  shelf/copy+fold");
    for length in LENGTHS {
        Case::new(length).print_line();
    }
}

impl Case {
    /// As many random places as one shelf has room for.
    fn new(length: usize) -> Case {
        let mut random = Random(length as u64);
        let text = random.text(length);
        let mut places: Vec<usize> = (0..MOST_SPLICES)
            .map(|_| random.below(length - STAMP.len() + 1))
            .collect();
        places.truncate(room(&text, &places));
        Case { text, places }
    }

    fn rounds(&self) -> usize {
        SPLICES.div_ceil(self.places.len())
    }

    fn print_line(&self) {
        let last = self.last_text();
        let runs: Vec<Times> = (0..RUNS).map(|_| self.times(&last)).collect();
        println!(
            "  {:7} {:7} {:10.0} {:10.0} {:10.0} {:12.2} {:16.4}",
            self.text.len(),
            self.places.len(),
            median(&runs, |run| run.shelf),
            median(&runs, |run| run.crope),
            median(&runs, |run| run.copy),
            median(&runs, |run| run.shelf / run.crope),
            median(&runs, |run| run.shelf / run.copy),
        );
    }

    fn times(&self, last: &[u8]) -> Times {
        let with = self.shelf_time(&self.places, last);
        let without = self.shelf_time(&[], &self.text);
        let count = self.rounds() * self.places.len();
        Times {
            shelf: nanoseconds_each(with.saturating_sub(without), count),
            crope: nanoseconds_each(self.crope_time(last), count),
            copy: nanoseconds_each(self.copy_time(), COPIES),
        }
    }

    /// The time of rounds that each lay the text on a fresh shelf, and splice at each of the places.
    fn shelf_time(&self, places: &[usize], last: &[u8]) -> Duration {
        let rounds = self.rounds();
        let (time, told) = timed(|| measured::splices(&self.text, places, rounds));
        assert_eq!(told.expect("there is room"), plain::fingerprint(last));
        time
    }

    /// The time of as many rounds' splices alone.
    fn crope_time(&self, last: &[u8]) -> Duration {
        let mut sum = Duration::ZERO;
        for _ in 0..self.rounds() {
            let (told, time) = crope::splices(&self.text, &STAMP, &self.places);
            assert_eq!(told, last);
            sum += time;
        }
        sum
    }

    fn copy_time(&self) -> Duration {
        let mut text = self.text.clone();
        let (time, _) = timed(|| {
            for place in &self.places[..COPIES] {
                text = stamped(&text, *place);
                black_box(plain::fingerprint(&text));
            }
        });
        time
    }

    fn last_text(&self) -> Vec<u8> {
        let mut text = self.text.clone();
        for place in &self.places {
            text[*place..place + STAMP.len()].copy_from_slice(&STAMP);
        }
        text
    }
}

/// A copy of the text with the stamp at a place.
fn stamped(text: &[u8], place: usize) -> Vec<u8> {
    let mut copy = text.to_vec();
    copy[place..place + STAMP.len()].copy_from_slice(&STAMP);
    copy
}

/// How many of the splices one shelf has room for.
fn room(text: &[u8], places: &[usize]) -> usize {
    let fits = |count: &usize| measured::splices(text, &places[..*count], 1).is_ok();
    let [mut fitting, mut above] = [0, places.len() + 1];
    while above - fitting > 1 {
        let middle = fitting.midpoint(above);
        if fits(&middle) {
            fitting = middle;
        } else {
            above = middle;
        }
    }
    fitting
}
