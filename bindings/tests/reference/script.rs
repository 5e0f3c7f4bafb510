//! docs/SCRIPTS.md: checks the answers to a script call by call.

use super::netstring;
use super::shelf::{Outcome, Plan, SMALL_BUFFER, Shelf};

pub const MOST_SCRIPT: usize = 16_384;
pub const MOST_ANSWER: usize = 4_102;
const MOST_TOLD: usize = 4_096;
const BAD_NETSTRING: u32 = 1;
const BAD_CALL: u32 = 2;

/// Where a call's answer and the call itself end.
#[derive(Clone, Copy, Debug, PartialEq, Eq)]
pub struct End {
    pub len: usize,
    pub next: usize,
}

/// The answers of a whole script, which were found right.
#[derive(Debug, Default)]
pub struct Checked {
    pub answers: Vec<u8>,
    pub ends: Vec<End>,
    /// How many answers the documents leave open: refused with 12, or not.
    pub open: usize,
}

impl Checked {
    /// Where a run ends that has so much room: it goes on while the longest answer would fit.
    pub fn end(&self, script_len: usize, room: usize) -> Result<End, u32> {
        if script_len > MOST_SCRIPT {
            return Err(7);
        }
        if room < MOST_ANSWER {
            return Err(8);
        }
        let mut end = End { len: 0, next: 0 };
        for after in &self.ends {
            if room - end.len < MOST_ANSWER {
                break;
            }
            end = *after;
        }
        Ok(end)
    }
}

/// Checks that these are the answers of the whole script, or says what is wrong.
pub fn check(script: &[u8], answers: Vec<u8>) -> Result<Checked, String> {
    let mut shelf = Shelf::fresh();
    let mut checked = Checked::default();
    let mut end = End { len: 0, next: 0 };
    while end.next < script.len() {
        let at = end.next;
        let (said, next) = match netstring::read(script, at) {
            Some((content, next)) => (answer(&shelf, content), next),
            None => (Answer::Refused(BAD_NETSTRING), script.len()),
        };
        let rest = &answers[end.len..];
        let came = |content: &[u8]| rest.starts_with(&netstring::write(content));
        let wrong = || format!("call at {at}: {}", rest.escape_ascii());
        let content = match said {
            Answer::Refused(number) => refusal(number, at),
            Answer::Told(content) => content,
            Answer::Planned(plan) => {
                let written = |outcome: &Outcome| match *outcome {
                    Outcome::Made(number) => number.to_string().into_bytes(),
                    Outcome::Refused(number) => refusal(number, at),
                };
                let outcomes = shelf.outcomes(&plan);
                checked.open += outcomes.len() - 1;
                let outcome = outcomes
                    .into_iter()
                    .find(|outcome| came(&written(outcome)))
                    .ok_or_else(wrong)?;
                shelf.settle(plan, outcome);
                written(&outcome)
            }
        };
        if !came(&content) {
            return Err(wrong());
        }
        let len = end.len + netstring::write(&content).len();
        end = End { len, next };
        checked.ends.push(end);
    }
    if end.len == answers.len() {
        checked.answers = answers;
        Ok(checked)
    } else {
        Err(format!(
            "behind the last: {}",
            answers[end.len..].escape_ascii()
        ))
    }
}

enum Answer {
    Refused(u32),
    Told(Vec<u8>),
    Planned(Plan),
}

fn answer(shelf: &Shelf, content: &[u8]) -> Answer {
    let Some(parts) = parts(content) else {
        return Answer::Refused(BAD_CALL);
    };
    let Some((word, arguments)) = parts.split_first() else {
        return Answer::Refused(BAD_CALL);
    };
    if let (b"put", [text]) = (*word, arguments) {
        return shelf
            .put(text)
            .map_or_else(Answer::Refused, Answer::Planned);
    }
    let numbers: Option<Vec<usize>> = arguments.iter().map(|digits| number(digits)).collect();
    let answer = match (*word, numbers.as_deref()) {
        (b"cut", Some(&[d, from, to])) => shelf.cut(d, from, to).map(Answer::Planned),
        (b"splice", Some(&[d, from, to, other])) => {
            shelf.splice(d, from, to, other).map(Answer::Planned)
        }
        (b"mark", Some(&[d])) => shelf
            .mark(d)
            .map(|mark| Answer::Told(mark.to_digits().into_bytes())),
        (b"text", Some(&[d])) => shelf.text(d).and_then(|text| {
            if text.len() > MOST_TOLD {
                return Err(SMALL_BUFFER);
            }
            Ok(Answer::Told(text.to_vec()))
        }),
        _ => Err(BAD_CALL),
    };
    answer.unwrap_or_else(Answer::Refused)
}

/// The netstrings that a content is a run of.
fn parts(content: &[u8]) -> Option<Vec<&[u8]>> {
    let mut parts = Vec::new();
    let mut at = 0;
    while at < content.len() {
        let (part, next) = netstring::read(content, at)?;
        parts.push(part);
        at = next;
    }
    Some(parts)
}

fn number(digits: &[u8]) -> Option<usize> {
    netstring::number(digits).filter(|_| digits.len() <= 7)
}

fn refusal(number: u32, at: usize) -> Vec<u8> {
    format!("-{number}@{at}").into_bytes()
}
