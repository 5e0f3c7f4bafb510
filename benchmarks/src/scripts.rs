//! A full script, run by the program `shelf` and by the library.

use crate::plain;
use crate::timing::{Random, median, timed};
use std::fmt::Write as _;
use std::hint::black_box;
use std::io::{Read as _, Write as _};
use std::path::{Path, PathBuf};
use std::process::{Command, Stdio};
use std::time::Duration;
use vault::buffer::{MOST_ANSWER, MOST_SCRIPT, run_script};

const LENGTH: usize = MOST_SCRIPT;

/// A few below the places of the program's shelf.
const DOCUMENTS: usize = 60;

/// What a pipe holds.
const PIPE: usize = 65536;

const RUNS: usize = 201;

/// So often the library runs the script in one measurement, each time on a fresh shelf.
const ROUNDS: usize = 100;

/// The times of one run.
struct Times {
    program: Duration,
    program_alone: Duration,
    library: Duration,
}

pub fn run() {
    let session = Session::full();
    assert!(session.answers.len() < PIPE);
    let told = answers_of_program(&session.script);
    assert_eq!(told, session.answers);
    let mut room = vec![0; session.answers.len() + MOST_ANSWER];
    let told = run_script(&session.script, &mut room).expect("there is room");
    assert_eq!(&room[..told.len], session.answers);
    let runs: Vec<Times> = (0..RUNS).map(|_| times(&session, &mut room)).collect();
    println!(
        "script of {} bytes, {} calls, medians of {RUNS} runs",
        session.script.len(),
        session.calls
    );
    let start = median(&runs, |run| run.program_alone.as_secs_f64());
    session.print_rate(
        "program, start taken off",
        median(&runs, |run| {
            run.program.as_secs_f64() - run.program_alone.as_secs_f64()
        }),
    );
    println!("  program with an empty script: {:.2} ms", start * 1e3);
    session.print_rate(
        "library, in the process",
        median(&runs, |run| run.library.as_secs_f64()),
    );
}

fn times(session: &Session, room: &mut [u8]) -> Times {
    let (program, _) = timed(|| answers_of_program(&session.script));
    let (program_alone, _) = timed(|| answers_of_program(b""));
    let (library, _) = timed(|| {
        for _ in 0..ROUNDS {
            black_box(run_script(&session.script, room).expect("there is room"));
        }
    });
    Times {
        program,
        program_alone,
        library: library / ROUNDS as u32,
    }
}

/// A script as long as may be, and what it is answered.
struct Session {
    script: Vec<u8>,
    calls: usize,
    answers: Vec<u8>,
    documents: Vec<Vec<u8>>,
    random: Random,
}

impl Session {
    fn full() -> Session {
        let mut session = Session {
            script: Vec::new(),
            calls: 0,
            answers: Vec::new(),
            documents: vec![Vec::new()],
            random: Random(7),
        };
        session.put("lease_seconds = 3600\n".as_bytes());
        while session.documents.len() < DOCUMENTS {
            session.edit();
            session.ask();
        }
        while session.script.len() + 40 < LENGTH {
            session.ask();
        }
        session.fill();
        session
    }

    /// Fills what is left of the script by a text.
    fn fill(&mut self) {
        let left = LENGTH - self.script.len();
        let around = netstring(&join(&[b"put", &vec![b'x'; left]])).len() - left;
        self.put(&vec![b'x'; left - around]);
        assert!(self.script.len() <= LENGTH);
    }

    fn edit(&mut self) {
        match self.documents.len() % 3 {
            0 => {
                let line = format!("lease_seconds = {}\n", 1000 + self.random.below(9000));
                self.put(line.as_bytes());
            }
            1 => self.splice(),
            _ => self.cut(),
        }
    }

    fn ask(&mut self) {
        let d = self.random.below(self.documents.len());
        let number = d.to_string();
        let text = self.documents[d].clone();
        if self.calls.is_multiple_of(2) {
            self.call(
                &[b"mark", number.as_bytes()],
                &digits(&plain::fingerprint(&text)),
            );
        } else {
            self.call(&[b"text", number.as_bytes()], &text);
        }
    }

    fn put(&mut self, text: &[u8]) {
        self.make(&[b"put", text], text.to_vec());
    }

    fn splice(&mut self) {
        let (d, from, to) = self.part();
        let other = self.random.below(self.documents.len());
        let text = &self.documents[d];
        let made = [&text[..from], &self.documents[other], &text[to..]].concat();
        let numbers = [d, from, to, other].map(|n| n.to_string());
        let [d, from, to, other] = numbers.each_ref().map(|n| n.as_bytes());
        self.make(&[b"splice", d, from, to, other], made);
    }

    fn cut(&mut self) {
        let (d, from, to) = self.part();
        let made = self.documents[d][from..to].to_vec();
        let numbers = [d, from, to].map(|n| n.to_string());
        let [d, from, to] = numbers.each_ref().map(|n| n.as_bytes());
        self.make(&[b"cut", d, from, to], made);
    }

    /// A random document with a random part of it.
    fn part(&mut self) -> (usize, usize, usize) {
        let d = self.random.below(self.documents.len());
        let len = self.documents[d].len();
        let from = self.random.below(len + 1);
        let to = from + self.random.below(len - from + 1);
        (d, from, to)
    }

    fn make(&mut self, words: &[&[u8]], text: Vec<u8>) {
        let number = self.documents.len().to_string();
        self.documents.push(text);
        self.call(words, number.as_bytes());
    }

    fn call(&mut self, words: &[&[u8]], answer: &[u8]) {
        self.script.extend(netstring(&join(words)));
        self.answers.extend(netstring(answer));
        self.calls += 1;
    }

    fn print_rate(&self, name: &str, seconds: f64) {
        let rate = self.calls as f64 / seconds;
        let each = seconds * 1e9 / self.calls as f64;
        println!(
            "  {name}: {:.2} million answers a second, {each:.0} ns each",
            rate / 1e6
        );
    }
}

fn netstring(content: &[u8]) -> Vec<u8> {
    let mut text = format!("{}:", content.len()).into_bytes();
    text.extend(content);
    text.push(b',');
    text
}

/// The words as netstrings, one behind the other.
fn join(words: &[&[u8]]) -> Vec<u8> {
    words.iter().flat_map(|word| netstring(word)).collect()
}

fn digits(bytes: &[u8]) -> Vec<u8> {
    let mut digits = String::new();
    for byte in bytes {
        write!(digits, "{byte:02x}").expect("a String takes all");
    }
    digits.into_bytes()
}

/// The program that `rt run` leaves.
fn program() -> PathBuf {
    Path::new(env!("CARGO_MANIFEST_DIR")).join("../crates/shelf/out/shelf")
}

/// Reads the answers when the program has ended, lest the two wait for one another at each answer: a pipe holds them all.
fn answers_of_program(script: &[u8]) -> Vec<u8> {
    let mut child = Command::new(program())
        .stdin(Stdio::piped())
        .stdout(Stdio::piped())
        .spawn()
        .expect("the program starts");
    let mut input = child.stdin.take().expect("a pipe");
    input.write_all(script).expect("the program reads");
    drop(input);
    let status = child.wait().expect("the program ends");
    assert!(status.success());
    let mut answers = Vec::new();
    let mut output = child.stdout.take().expect("a pipe");
    output.read_to_end(&mut answers).expect("a pipe is read");
    answers
}
