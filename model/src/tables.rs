//! Tables: a weight for each of at most 1,024 sheets (docs/BELIEFS.md).

use crate::beliefs::{Found, Shares, Span};
use crate::questions::{Question, Sheet};
use crate::refusal::Refusal;

const MOST_SHEETS: u64 = 1024;

#[derive(Clone, Debug)]
pub struct Table {
    span: Span,
    /// The sheets that weigh something, with their weights.
    held: Vec<(Sheet, u64)>,
}

impl Table {
    pub fn new(first: u8, count: u8, tops: Sheet, weights: &[u32]) -> Result<Table, Refusal> {
        let span = Span::new(first, count, tops)?;
        if span.sheets() > MOST_SHEETS
            || span.sheets() != weights.len() as u64
            || weights.iter().any(|weight| !(1..=65_535).contains(weight))
        {
            return Err(Refusal::Amount);
        }
        let mut sheet = [0; 4];
        let mut held = Vec::with_capacity(weights.len());
        for &weight in weights {
            held.push((sheet, weight as u64));
            advance(&mut sheet, &tops);
        }
        Ok(Table { span, held })
    }

    pub fn span(&self) -> Span {
        self.span
    }

    pub fn total(&self) -> u64 {
        self.held.iter().map(|&(_, weight)| weight).sum()
    }

    pub fn peak(&self) -> u64 {
        self.held.iter().map(|&(_, weight)| weight).max().unwrap_or(0)
    }

    pub fn is_whole(&self) -> bool {
        self.held.len() as u64 == self.span.sheets()
    }

    pub fn weight(&self, sheet: &Sheet) -> u64 {
        let same = |other: &Sheet| (0..4).all(|k| !self.span.has(k) || sheet[k] == other[k]);
        self.held.iter().find(|(other, _)| same(other)).map_or(0, |&(_, weight)| weight)
    }

    pub fn judge(&self, question: &Question) -> Option<(Shares, Found)> {
        if !self.span.covers(question) {
            return None;
        }
        let mut shares = Shares::default();
        let mut answers = Vec::with_capacity(self.held.len());
        for (sheet, weight) in &self.held {
            let answer = question.answer(sheet);
            shares.add(answer, 1, *weight);
            answers.push(answer);
        }
        Some((shares, Found::Sheets(answers)))
    }

    pub fn carries(&self, question: &Question) -> bool {
        self.span.covers(question)
    }

    /// Mass and heaviest of one answer, in a pass of its own.
    pub fn share(&self, question: &Question, answer: u8) -> Option<(u64, u64)> {
        if !self.carries(question) {
            return None;
        }
        let (mut mass, mut heaviest) = (0, 0);
        for (sheet, weight) in &self.held {
            if question.answer(sheet) == answer {
                mass += weight;
                heaviest = heaviest.max(*weight);
            }
        }
        Some((mass, heaviest))
    }

    pub fn keep(&mut self, answers: &[u8], answer: u8) {
        let mut answers = answers.iter();
        self.held.retain(|_| answers.next() == Some(&answer));
    }
}

/// The next sheet, the last field moving fastest. Fields outside the span have top 0 and stay.
fn advance(sheet: &mut Sheet, tops: &Sheet) {
    for k in (0..4).rev() {
        if sheet[k] < tops[k] {
            sheet[k] += 1;
            return;
        }
        sheet[k] = 0;
    }
}
