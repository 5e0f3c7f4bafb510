//! docs/SHELF.md: a shelf is a list of strings.
//!
//! The documents leave open how a text falls into leaves, and with it the height of a tree that was cut or spliced and how
//! many records that took. docs/TREE.md gives bounds of both, which are kept here as spans, so it may be open whether a
//! call is refused with 12. Then both outcomes are allowed, and the one that came narrows the span of records.

use std::rc::Rc;

use super::fingerprint::Matrix;

pub const BAD_PART: u32 = 6;
pub const NO_DOCUMENT: u32 = 5;
pub const TOO_LONG: u32 = 7;
pub const SMALL_BUFFER: u32 = 8;
pub const TEXT_FULL: u32 = 11;
pub const RECORDS_SHORT: u32 = 12;
pub const NUMBERS_SPENT: u32 = 13;

const RECORDS: usize = 1_024;
const ADDED: usize = 16_384;
const PLACES: usize = 64;
const MOST_TEXT: usize = 4_096;
const MOST_DOCUMENT: usize = 1_048_576;

/// The least and the most that a number may be.
#[derive(Clone, Copy, Debug)]
pub struct Span {
    least: usize,
    most: usize,
}

impl Span {
    fn exactly(number: usize) -> Self {
        Self {
            least: number,
            most: number,
        }
    }
}

#[derive(Clone)]
struct Document {
    text: Rc<[u8]>,
    height: Span,
}

/// A document that is about to be made.
pub struct Plan {
    document: Document,
    added: usize,
    need: Span,
    takes: Span,
    /// The documents of which one has the height that makes the need.
    named: Vec<usize>,
}

#[derive(Clone, Copy, Debug, PartialEq, Eq)]
pub enum Outcome {
    Made(usize),
    Refused(u32),
}

pub struct Shelf {
    documents: Vec<Document>,
    added: usize,
    records: Span,
    /// Documents that were named together by an edit that was refused with 12.
    short: Vec<Vec<usize>>,
}

impl Shelf {
    /// A fresh one, as a script finds it: with the empty text alone.
    pub fn fresh() -> Self {
        let empty = Document {
            text: Rc::from([]),
            height: Span::exactly(0),
        };
        Self {
            documents: vec![empty],
            added: 0,
            records: Span::exactly(0),
            short: Vec::new(),
        }
    }

    pub fn text(&self, d: usize) -> Result<&[u8], u32> {
        Ok(&self.document(d)?.text)
    }

    pub fn mark(&self, d: usize) -> Result<Matrix, u32> {
        Ok(Matrix::of_text(self.text(d)?))
    }

    pub fn put(&self, text: &[u8]) -> Result<Plan, u32> {
        if text.len() > MOST_TEXT {
            return Err(TOO_LONG);
        }
        if text.len() > ADDED - self.added {
            return Err(TEXT_FULL);
        }
        let leaves = leaves(text.len());
        Ok(Plan {
            document: Document {
                text: text.into(),
                height: Span::exactly(least_height(text.len())),
            },
            added: text.len(),
            need: Span::exactly(2 * leaves),
            takes: Span::exactly((2 * leaves).saturating_sub(1)),
            named: Vec::new(),
        })
    }

    pub fn cut(&self, d: usize, from: usize, to: usize) -> Result<Plan, u32> {
        let Document { text, height } = self.document(d)?;
        let text = text.get(from..to).ok_or(BAD_PART)?;
        Ok(Plan {
            document: Document {
                text: text.into(),
                height: heights(text.len(), height.most),
            },
            added: 0,
            need: edit_need(*height),
            takes: Span {
                least: 0,
                most: 8 * height.most + 2,
            },
            named: vec![d],
        })
    }

    pub fn splice(&self, d: usize, from: usize, to: usize, e: usize) -> Result<Plan, u32> {
        let Document { text, height } = self.document(d)?;
        let other = self.document(e)?;
        text.get(from..to).ok_or(BAD_PART)?;
        if text.len() - (to - from) + other.text.len() > MOST_DOCUMENT {
            return Err(TOO_LONG);
        }
        let text = [&text[..from], &other.text, &text[to..]].concat();
        let higher = Span {
            least: height.least.max(other.height.least),
            most: height.most.max(other.height.most),
        };
        Ok(Plan {
            document: Document {
                height: heights(text.len(), higher.most + 2),
                text: text.into(),
            },
            added: 0,
            need: edit_need(higher),
            takes: Span {
                least: 0,
                most: 17 * higher.most + 13,
            },
            named: if other.height.most <= height.least {
                vec![d]
            } else {
                vec![d, e]
            },
        })
    }

    /// What may become of a plan: one outcome, or two where the documents leave open whether records are short.
    pub fn outcomes(&self, plan: &Plan) -> Vec<Outcome> {
        let Span { least, most } = self.records;
        let within = |short: &Vec<usize>| short.iter().all(|d| plan.named.contains(d));
        if self.short.iter().any(within) {
            return vec![Outcome::Refused(RECORDS_SHORT)];
        }
        let mut outcomes = Vec::new();
        if plan.need.least + least <= RECORDS {
            outcomes.push(if self.documents.len() > PLACES {
                Outcome::Refused(NUMBERS_SPENT)
            } else {
                Outcome::Made(self.documents.len())
            });
        }
        if plan.need.most + most > RECORDS {
            outcomes.push(Outcome::Refused(RECORDS_SHORT));
        }
        outcomes
    }

    /// Goes on with the outcome that came.
    pub fn settle(&mut self, plan: Plan, outcome: Outcome) {
        if outcome == Outcome::Refused(RECORDS_SHORT) {
            let least = (RECORDS + 1).saturating_sub(plan.need.most);
            self.records.least = self.records.least.max(least);
            if !plan.named.is_empty() {
                self.short.push(plan.named);
            }
            return;
        }
        self.records.most = self.records.most.min(RECORDS - plan.need.least);
        if let Outcome::Made(_) = outcome {
            self.documents.push(plan.document);
            self.added += plan.added;
            self.records.least += plan.takes.least;
            self.records.most += plan.takes.most.min(plan.need.most);
        }
    }

    fn document(&self, d: usize) -> Result<&Document, u32> {
        self.documents.get(d).ok_or(NO_DOCUMENT)
    }
}

fn leaves(len: usize) -> usize {
    len.div_ceil(64)
}

fn edit_need(height: Span) -> Span {
    Span {
        least: 32 * (height.least + 1),
        most: 32 * (height.most + 1),
    }
}

/// A tree of height h has at most 2^h leaves of at most 64 bytes. A text that is put has as low a tree.
fn least_height(len: usize) -> usize {
    leaves(len).next_power_of_two().ilog2() as usize
}

/// The heights that a text may have that is no higher than `most`: F(h + 2) is at most its length.
fn heights(len: usize, most: usize) -> Span {
    let (mut height, mut fewest, mut next) = (0, 1, 2);
    while next <= len {
        (height, fewest, next) = (height + 1, next, fewest + next);
    }
    Span {
        least: least_height(len),
        most: most.min(height),
    }
}
