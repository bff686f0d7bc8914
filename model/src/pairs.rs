//! Pairs: two beliefs side by side, held to be independent (docs/BELIEFS.md).

use crate::beliefs::{Belief, Found, Shares, Span, GREATEST_TOTAL};
use crate::questions::{Question, Sheet};
use crate::refusal::Refusal;

#[derive(Clone, Debug)]
pub struct Pair {
    pub left: Belief,
    pub right: Belief,
}

impl Pair {
    pub fn new(left: Belief, right: Belief) -> Result<Pair, Refusal> {
        if right.span().first != left.span().end() {
            return Err(Refusal::Sides);
        }
        if left.total() as u128 * right.total() as u128 > GREATEST_TOTAL as u128 {
            return Err(Refusal::Excess);
        }
        Ok(Pair { left, right })
    }

    pub fn span(&self) -> Span {
        let (left, right) = (self.left.span(), self.right.span());
        let tops = [0, 1, 2, 3].map(|k| if left.has(k) { left.tops[k] } else { right.tops[k] });
        Span { first: left.first, count: left.count + right.count, tops }
    }

    pub fn total(&self) -> u64 {
        self.left.total() * self.right.total()
    }

    pub fn peak(&self) -> u64 {
        self.left.peak() * self.right.peak()
    }

    pub fn is_whole(&self) -> bool {
        self.left.is_whole() && self.right.is_whole()
    }

    pub fn weight(&self, sheet: &Sheet) -> u64 {
        self.left.weight(sheet) * self.right.weight(sheet)
    }

    pub fn carries(&self, question: &Question) -> bool {
        if self.left.span().covers(question) {
            self.left.carries(question)
        } else {
            self.right.span().covers(question) && self.right.carries(question)
        }
    }

    /// Mass and heaviest of one answer, in a pass of its own.
    pub fn share(&self, question: &Question, answer: u8) -> Option<(u64, u64)> {
        let (side, other) = if self.left.span().covers(question) {
            (&self.left, &self.right)
        } else if self.right.span().covers(question) {
            (&self.right, &self.left)
        } else {
            return None;
        };
        let (mass, heaviest) = side.share(question, answer)?;
        Some((mass * other.total(), heaviest * other.peak()))
    }

    pub fn judge(&self, question: &Question) -> Option<(Shares, Found)> {
        if self.left.span().covers(question) {
            let (shares, found) = self.left.judge(question)?;
            Some((beside(shares, &self.right), Found::Left(Box::new(found))))
        } else if self.right.span().covers(question) {
            let (shares, found) = self.right.judge(question)?;
            Some((beside(shares, &self.left), Found::Right(Box::new(found))))
        } else {
            None
        }
    }
}

/// The shares of one side, beside all that the other one holds.
fn beside(mut shares: Shares, other: &Belief) -> Shares {
    let (total, peak) = (other.total(), other.peak());
    shares.mass.iter_mut().for_each(|mass| *mass *= total);
    shares.heaviest.iter_mut().for_each(|heaviest| *heaviest *= peak);
    shares
}
