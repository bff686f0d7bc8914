//! What every kind of belief offers (docs/BELIEFS.md).

use crate::boxes::{Boxes, Region};
use crate::pairs::Pair;
use crate::questions::{Question, Sheet, ANSWERS};
use crate::refusal::Refusal;
use crate::tables::Table;

/// No total passes this.
pub const GREATEST_TOTAL: u64 = 1 << 40;

/// The fields that a belief covers, and the greatest value of each.
#[derive(Clone, Copy, Debug, PartialEq, Eq)]
pub struct Span {
    pub first: u8,
    pub count: u8,
    pub tops: Sheet,
}

impl Span {
    pub fn new(first: u8, count: u8, tops: Sheet) -> Result<Span, Refusal> {
        if count == 0 || first as u32 + count as u32 > 4 {
            return Err(Refusal::Span);
        }
        let span = Span { first, count, tops };
        if (0..4).any(|k| !span.has(k) && tops[k] != 0) {
            return Err(Refusal::Value);
        }
        Ok(span)
    }

    pub fn end(&self) -> u8 {
        self.first + self.count
    }

    pub fn has(&self, field: usize) -> bool {
        (self.first as usize..self.end() as usize).contains(&field)
    }

    /// Whether all fields that the question reads are of the span.
    pub fn covers(&self, question: &Question) -> bool {
        (0..4).all(|k| self.has(k) || !question.reads(k))
    }

    /// How many sheets the span has. Fields outside it have one value, 0.
    pub fn sheets(&self) -> u64 {
        self.tops.iter().map(|&top| top as u64 + 1).product()
    }
}

/// How a question is judged: all answers in one pass, or by a call for each answer, as the interface of docs/BELIEFS.md has it.
#[derive(Clone, Copy, Debug, PartialEq, Eq)]
pub enum Way {
    OnePass,
    ByAnswer,
}

/// What each answer to a question would leave.
#[derive(Clone, Copy, Debug, Default)]
pub struct Shares {
    pub mass: [u64; ANSWERS],
    pub heaviest: [u64; ANSWERS],
}

impl Shares {
    /// Counts in `sheets` sheets of one weight that give the answer.
    pub fn add(&mut self, answer: u8, sheets: u64, weight: u64) {
        let answer = answer as usize;
        self.mass[answer] += sheets * weight;
        self.heaviest[answer] = self.heaviest[answer].max(weight);
    }

    /// The possible answers, lowest first, each with its mass and its heaviest.
    pub fn possible(&self) -> impl Iterator<Item = (u8, u64, u64)> + '_ {
        (0..ANSWERS).filter(|&a| self.mass[a] > 0).map(|a| (a as u8, self.mass[a], self.heaviest[a]))
    }

    /// The mass of any byte as an answer: above the greatest it is 0.
    pub fn mass_of(&self, answer: u8) -> u64 {
        self.mass.get(answer as usize).copied().unwrap_or(0)
    }
}

/// What a belief found out about a carried question, so that revising need not look again.
#[derive(Clone, Debug)]
pub enum Found {
    /// The answer of each sheet that a table holds.
    Sheets(Vec<u8>),
    /// The pieces of boxes, each with its answer.
    Pieces(Vec<(Region, u8)>),
    /// What a side of a pair found out.
    Left(Box<Found>),
    Right(Box<Found>),
}

#[derive(Clone, Debug)]
pub enum Belief {
    Table(Table),
    Boxes(Boxes),
    Pair(Box<Pair>),
}

impl Belief {
    pub fn letter(&self) -> u8 {
        match self {
            Belief::Table(_) => b'T',
            Belief::Boxes(_) => b'B',
            Belief::Pair(_) => b'P',
        }
    }

    pub fn span(&self) -> Span {
        match self {
            Belief::Table(table) => table.span(),
            Belief::Boxes(boxes) => boxes.span(),
            Belief::Pair(pair) => pair.span(),
        }
    }

    pub fn total(&self) -> u64 {
        match self {
            Belief::Table(table) => table.total(),
            Belief::Boxes(boxes) => boxes.total(),
            Belief::Pair(pair) => pair.total(),
        }
    }

    pub fn peak(&self) -> u64 {
        match self {
            Belief::Table(table) => table.peak(),
            Belief::Boxes(boxes) => boxes.peak(),
            Belief::Pair(pair) => pair.peak(),
        }
    }

    pub fn is_whole(&self) -> bool {
        match self {
            Belief::Table(table) => table.is_whole(),
            Belief::Boxes(boxes) => boxes.is_whole(),
            Belief::Pair(pair) => pair.is_whole(),
        }
    }

    pub fn weight(&self, sheet: &Sheet) -> u64 {
        match self {
            Belief::Table(table) => table.weight(sheet),
            Belief::Boxes(boxes) => boxes.weight(sheet),
            Belief::Pair(pair) => pair.weight(sheet),
        }
    }

    /// The shares of all answers to a question, or nothing if it is not carried.
    pub fn judge(&self, question: &Question) -> Option<(Shares, Found)> {
        match self {
            Belief::Table(table) => table.judge(question),
            Belief::Boxes(boxes) => boxes.judge(question),
            Belief::Pair(pair) => pair.judge(question),
        }
    }

    pub fn carries(&self, question: &Question) -> bool {
        match self {
            Belief::Table(table) => table.carries(question),
            Belief::Boxes(boxes) => boxes.share(question, 0).is_some(),
            Belief::Pair(pair) => pair.carries(question),
        }
    }

    /// Mass and heaviest of one answer, or nothing if the question is not carried.
    pub fn share(&self, question: &Question, answer: u8) -> Option<(u64, u64)> {
        match self {
            Belief::Table(table) => table.share(question, answer),
            Belief::Boxes(boxes) => boxes.share(question, answer),
            Belief::Pair(pair) => pair.share(question, answer),
        }
    }

    /// Mass and heaviest as calls that take bytes.
    fn mass(&self, bytes: &[u8], answer: u8) -> Result<u64, Refusal> {
        Ok(self.share(&Question::read(bytes)?, answer).ok_or(Refusal::NotCarried)?.0)
    }

    fn heaviest(&self, bytes: &[u8], answer: u8) -> Result<u64, Refusal> {
        Ok(self.share(&Question::read(bytes)?, answer).ok_or(Refusal::NotCarried)?.1)
    }

    /// The shares of all answers, each by calls of its own, until the answers so far have all the weight.
    pub fn shares_by_answer(&self, bytes: &[u8]) -> Result<Shares, Refusal> {
        let mut shares = Shares::default();
        let mut left = self.total();
        for answer in 0..ANSWERS {
            if left == 0 {
                break;
            }
            let mass = self.mass(bytes, answer as u8)?;
            left -= mass;
            if mass > 0 {
                shares.mass[answer] = mass;
                shares.heaviest[answer] = self.heaviest(bytes, answer as u8)?;
            }
        }
        Ok(shares)
    }

    /// The shares of all answers to the bytes of a question.
    pub fn shares(&self, bytes: &[u8], way: Way) -> Result<Shares, Refusal> {
        match way {
            Way::OnePass => Ok(self.judge(&Question::read(bytes)?).ok_or(Refusal::NotCarried)?.0),
            Way::ByAnswer => self.shares_by_answer(bytes),
        }
    }

    /// Keeps what gives the answer; `found` comes from judging the question, and the answer has mass.
    pub fn keep(&mut self, found: Found, answer: u8) {
        match (self, found) {
            (Belief::Table(table), Found::Sheets(answers)) => table.keep(&answers, answer),
            (Belief::Boxes(boxes), Found::Pieces(pieces)) => boxes.keep(pieces, answer),
            (Belief::Pair(pair), Found::Left(found)) => pair.left.keep(*found, answer),
            (Belief::Pair(pair), Found::Right(found)) => pair.right.keep(*found, answer),
            _ => unreachable!("found by another kind of belief"),
        }
    }

    pub fn revise(&mut self, question: &Question, answer: u8) -> Result<(), Refusal> {
        let (shares, found) = self.judge(question).ok_or(Refusal::NotCarried)?;
        if shares.mass_of(answer) == 0 {
            return Err(Refusal::NoMass);
        }
        self.keep(found, answer);
        Ok(())
    }
}
