//! The cabinet, its folders and its calls (docs/CABINET.md).

use crate::audit::{Audit, Entry, BEFORE_QUESTION, ENROLMENT};
use crate::beliefs::{Belief, Shares, Span, Way};
use crate::questions::{Question, Sheet};
use crate::refusal::Refusal;

#[derive(Clone, Copy, Debug, PartialEq, Eq)]
pub struct Threshold {
    pub n: u16,
    pub d: u16,
}

impl Threshold {
    /// Whether `part` of `whole` is above the threshold. A part is at most 2 to the 40th, so its product with 16 bits fits.
    fn is_passed(self, part: u64, whole: u64) -> bool {
        part * self.d as u64 > self.n as u64 * whole
    }
}

#[derive(Clone, Debug)]
struct Folder {
    code: u16,
    threshold: Threshold,
    belief: Belief,
}

/// What looking gives.
#[derive(Clone, Copy, Debug, PartialEq, Eq)]
pub struct Look {
    pub total: u64,
    pub peak: u64,
    pub threshold: Threshold,
}

#[derive(Clone, Debug)]
pub struct Cabinet {
    span: Span,
    sheet: Sheet,
    folders: Vec<Option<Folder>>,
    audit: Audit,
    way: Way,
}

impl Cabinet {
    pub fn new(count: u8, tops: Sheet, sheet: Sheet, places: usize, audit: Audit, way: Way) -> Result<Cabinet, Refusal> {
        let span = Span::new(0, count, tops)?;
        if (0..4).any(|k| sheet[k] > tops[k]) {
            return Err(Refusal::Value);
        }
        Ok(Cabinet { span, sheet, folders: vec![None; places], audit, way })
    }

    pub fn audit(&self) -> &Audit {
        &self.audit
    }

    /// Gives the place that the folder takes.
    pub fn enrol(&mut self, code: u16, threshold: Threshold, belief: Belief) -> Result<usize, Refusal> {
        let Threshold { n, d } = threshold;
        if n < 1 || n > d {
            return Err(Refusal::Amount);
        }
        if code == 0 || self.find(code).is_ok() {
            return Err(Refusal::Code);
        }
        let place = self.folders.iter().position(Option::is_none).ok_or(Refusal::Full)?;
        if belief.span() != self.span {
            return Err(Refusal::Unfit);
        }
        if self.audit.free() < ENROLMENT {
            return Err(Refusal::Short);
        }
        if !belief.is_whole() {
            return Err(Refusal::NoMass);
        }
        if threshold.is_passed(belief.peak(), belief.total()) {
            return Err(Refusal::TooTelling);
        }
        self.audit.write(&Entry::Enrolled { code, n, d, letter: belief.letter() })?;
        self.folders[place] = Some(Folder { code, threshold, belief });
        Ok(place)
    }

    /// Gives the answer.
    pub fn ask(&mut self, code: u16, bytes: &[u8]) -> Result<u8, Refusal> {
        let place = self.find(code)?;
        let question = Question::read(bytes)?;
        if self.audit.free() < BEFORE_QUESTION + bytes.len() {
            return Err(Refusal::Short);
        }
        let answer = question.answer(&self.sheet);
        let folder = self.folders[place].as_mut().expect("a found folder");
        let asked = match self.way {
            Way::OnePass => folder.ask(&question, answer),
            Way::ByAnswer => folder.ask_by_answer(bytes, answer),
        };
        let entry = match asked {
            Ok(()) => Entry::Answered { code, answer, question: bytes },
            Err(refusal @ (Refusal::NotCarried | Refusal::TooTelling)) => {
                self.audit.write(&Entry::Refused { code, number: refusal.number(), question: bytes })?;
                return Err(refusal);
            }
            Err(refusal) => return Err(refusal),
        };
        self.audit.write(&entry)?;
        Ok(answer)
    }

    pub fn look(&self, code: u16) -> Result<Look, Refusal> {
        let folder = self.folders[self.find(code)?].as_ref().expect("a found folder");
        Ok(Look { total: folder.belief.total(), peak: folder.belief.peak(), threshold: folder.threshold })
    }

    /// The first place with this code.
    fn find(&self, code: u16) -> Result<usize, Refusal> {
        let has = |folder: &Option<Folder>| folder.as_ref().is_some_and(|folder| folder.code == code);
        self.folders.iter().position(has).ok_or(Refusal::Code)
    }
}

impl Folder {
    /// Judges the question over every answer, then revises by the sheet's own.
    fn ask(&mut self, question: &Question, answer: u8) -> Result<(), Refusal> {
        let (shares, found) = self.belief.judge(question).ok_or(Refusal::NotCarried)?;
        self.allow(&shares, answer)?;
        self.belief.keep(found, answer);
        Ok(())
    }

    /// The same by calls for each answer.
    fn ask_by_answer(&mut self, bytes: &[u8], answer: u8) -> Result<(), Refusal> {
        if !self.belief.carries(&Question::read(bytes)?) {
            return Err(Refusal::NotCarried);
        }
        self.allow(&self.belief.shares_by_answer(bytes)?, answer)?;
        let question = Question::read(bytes)?;
        if self.belief.share(&question, answer).ok_or(Refusal::NotCarried)?.0 == 0 {
            return Err(Refusal::NoMass);
        }
        self.belief.revise(&question, answer)
    }

    /// Whether the sheet's own answer is possible, and no possible answer too telling.
    fn allow(&self, shares: &Shares, answer: u8) -> Result<(), Refusal> {
        if shares.mass_of(answer) == 0 {
            return Err(Refusal::NoMass);
        }
        if shares.possible().any(|(_, mass, heaviest)| self.threshold.is_passed(heaviest, mass)) {
            return Err(Refusal::TooTelling);
        }
        Ok(())
    }
}
