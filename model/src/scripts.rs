//! The programs and their text (docs/SCRIPTS.md). Each takes a script and gives what is printed.

use std::fmt::{self, Display, Write};

use crate::audit::{self, Audit, Entry};
use crate::beliefs::{Belief, Way};
use crate::boxes::Boxes;
use crate::cabinet::{Cabinet, Threshold};
use crate::pairs::Pair;
use crate::questions::{Question, Sheet};
use crate::refusal::Refusal;
use crate::tables::Table;

const MOST_HEX: usize = 200;
const MOST_PLACES: u64 = 1024;
const MOST_AUDIT: u64 = 65_536;

macro_rules! print {
    ($out:expr, $($format:tt)*) => {
        writeln!($out, $($format)*).expect("a string takes all")
    };
}

// ---------------------------------------------------------------- lines and words

/// The lines that are read, each with its number.
struct Lines<'a> {
    rest: std::iter::Enumerate<std::vec::IntoIter<&'a [u8]>>,
    count: usize,
}

impl<'a> Lines<'a> {
    fn new(script: &'a [u8]) -> Lines<'a> {
        let mut lines: Vec<&[u8]> = script.split(|&byte| byte == b'\n').collect();
        // What follows the last line feed is a line only if something stands there.
        if lines.last().is_some_and(|line| line.is_empty()) {
            lines.pop();
        }
        Lines { count: lines.len(), rest: lines.into_iter().enumerate() }
    }

    /// The next line of a head, read by `read`; the number of the faulty line if it is missing or cannot be read.
    fn head<T>(&mut self, read: impl Fn(&mut Words<'a>) -> Option<T>) -> Result<T, usize> {
        let count = self.count;
        let (number, line) = self.next().ok_or(count + 1)?;
        whole(line, read).ok_or(number)
    }
}

impl<'a> Iterator for Lines<'a> {
    type Item = (usize, &'a [u8]);

    fn next(&mut self) -> Option<(usize, &'a [u8])> {
        self.rest.find(|(_, line)| !line.is_empty() && line[0] != b'#').map(|(place, line)| (place + 1, line))
    }
}

/// What is left of a line.
struct Words<'a>(&'a [u8]);

/// Reads a line with nothing left over.
fn whole<'a, T>(line: &'a [u8], read: impl Fn(&mut Words<'a>) -> Option<T>) -> Option<T> {
    let mut words = Words(line);
    let read = read(&mut words)?;
    words.peek().is_none().then_some(read)
}

impl<'a> Words<'a> {
    fn split(&self) -> (&'a [u8], &'a [u8]) {
        let start = self.0.iter().position(|&byte| byte != b' ').unwrap_or(self.0.len());
        let rest = &self.0[start..];
        let end = rest.iter().position(|&byte| byte == b' ').unwrap_or(rest.len());
        rest.split_at(end)
    }

    fn peek(&self) -> Option<&'a [u8]> {
        Some(self.split().0).filter(|word| !word.is_empty())
    }

    fn next(&mut self) -> Option<&'a [u8]> {
        let (word, rest) = self.split();
        self.0 = rest;
        Some(word).filter(|word| !word.is_empty())
    }

    fn word(&mut self, word: &str) -> Option<()> {
        (self.next()? == word.as_bytes()).then_some(())
    }

    /// A number of at most `most`.
    fn number(&mut self, most: u64) -> Option<u64> {
        let digits = self.next()?;
        if !digits.iter().all(u8::is_ascii_digit) {
            return None;
        }
        let number = digits.iter().fold(0u64, |n, digit| n.saturating_mul(10).saturating_add((digit - b'0') as u64));
        (number <= most).then_some(number)
    }

    fn byte(&mut self) -> Option<u8> {
        self.number(u8::MAX as u64).map(|number| number as u8)
    }

    fn two_bytes(&mut self) -> Option<u16> {
        self.number(u16::MAX as u64).map(|number| number as u16)
    }

    fn sheet(&mut self) -> Option<Sheet> {
        Some([self.byte()?, self.byte()?, self.byte()?, self.byte()?])
    }

    fn hex(&mut self) -> Option<Vec<u8>> {
        let digits = self.next()?;
        if digits == b"-" {
            return Some(Vec::new());
        }
        if digits.len() % 2 != 0 || digits.len() > 2 * MOST_HEX {
            return None;
        }
        let value = |digit: u8| (digit as char).to_digit(16).map(|value| value as u8);
        digits.chunks(2).map(|two| Some(16 * value(two[0])? + value(two[1])?)).collect()
    }
}

struct Hex<'a>(&'a [u8]);

impl Display for Hex<'_> {
    fn fmt(&self, f: &mut fmt::Formatter) -> fmt::Result {
        if self.0.is_empty() {
            return f.write_str("-");
        }
        self.0.iter().try_for_each(|byte| write!(f, "{byte:02X}"))
    }
}

// ---------------------------------------------------------------- beliefs

enum Kind {
    Table,
    Boxes,
    Pair(Box<Kind>, Box<Kind>),
}

impl Kind {
    fn read(words: &mut Words) -> Option<Kind> {
        let pair = |left, right| Kind::Pair(Box::new(left), Box::new(right));
        words.word("kind")?;
        Some(match words.next()? {
            b"T" => Kind::Table,
            b"B" => Kind::Boxes,
            b"PTT" => pair(Kind::Table, Kind::Table),
            b"PTB" => pair(Kind::Table, Kind::Boxes),
            b"PBT" => pair(Kind::Boxes, Kind::Table),
            b"PBB" => pair(Kind::Boxes, Kind::Boxes),
            b"PPTTB" => pair(pair(Kind::Table, Kind::Table), Kind::Boxes),
            _ => return None,
        })
    }
}

/// A belief as it is written.
enum Recipe {
    Table { first: u8, count: u8, tops: Sheet, weights: Vec<u32> },
    Boxes { first: u8, count: u8, tops: Sheet, leans: Vec<(Sheet, Sheet, u8)> },
    Pair(Box<Recipe>, Box<Recipe>),
}

/// A part that could not be made, and why.
struct Fault(&'static str, Refusal);

impl Display for Fault {
    fn fmt(&self, f: &mut fmt::Formatter) -> fmt::Result {
        write!(f, "{} {}", self.0, self.1)
    }
}

impl Recipe {
    fn read(kind: &Kind, words: &mut Words) -> Option<Recipe> {
        match kind {
            Kind::Table => {
                words.word("table")?;
                let (first, count, tops) = (words.byte()?, words.byte()?, words.sheet()?);
                let mut weights = Vec::new();
                while words.peek().is_some_and(|word| word != b";") {
                    weights.push(words.number(u32::MAX as u64)? as u32);
                }
                Some(Recipe::Table { first, count, tops, weights })
            }
            Kind::Boxes => {
                words.word("boxes")?;
                let (first, count, tops) = (words.byte()?, words.byte()?, words.sheet()?);
                let mut leans = Vec::new();
                while words.peek() == Some(b"lean") {
                    words.word("lean")?;
                    leans.push((words.sheet()?, words.sheet()?, words.byte()?));
                }
                Some(Recipe::Boxes { first, count, tops, leans })
            }
            Kind::Pair(left, right) => {
                let left = Recipe::read(left, words)?;
                words.word(";")?;
                let right = Recipe::read(right, words)?;
                Some(Recipe::Pair(Box::new(left), Box::new(right)))
            }
        }
    }

    /// Makes the parts from left to right, each pair as soon as its sides stand.
    fn make(&self) -> Result<Belief, Fault> {
        match self {
            Recipe::Table { first, count, tops, weights } => {
                let table = Table::new(*first, *count, *tops, weights).map_err(|refusal| Fault("table", refusal))?;
                Ok(Belief::Table(table))
            }
            Recipe::Boxes { first, count, tops, leans } => {
                let mut boxes = Boxes::new(*first, *count, *tops).map_err(|refusal| Fault("boxes", refusal))?;
                for (low, high, factor) in leans {
                    boxes.lean(*low, *high, *factor).map_err(|refusal| Fault("lean", refusal))?;
                }
                Ok(Belief::Boxes(boxes))
            }
            Recipe::Pair(left, right) => {
                let pair = Pair::new(left.make()?, right.make()?).map_err(|refusal| Fault("pair", refusal))?;
                Ok(Belief::Pair(Box::new(pair)))
            }
        }
    }
}

/// `total 12, peak 4, whole yes`
struct Figures<'a>(&'a Belief);

impl Display for Figures<'_> {
    fn fmt(&self, f: &mut fmt::Formatter) -> fmt::Result {
        let whole = if self.0.is_whole() { "yes" } else { "no" };
        write!(f, "total {}, peak {}, whole {whole}", self.0.total(), self.0.peak())
    }
}

// ---------------------------------------------------------------- answer

pub fn answer(script: &[u8]) -> String {
    let mut out = String::new();
    for (number, line) in Lines::new(script) {
        match whole(line, |words| Some((words.sheet()?, words.hex()?))) {
            None => print!(out, "line {number}: not understood"),
            Some((sheet, bytes)) => match Question::read(&bytes) {
                Ok(question) => print!(out, "answer {}", question.answer(&sheet)),
                Err(refusal) => print!(out, "{refusal}"),
            },
        }
    }
    out
}

// ---------------------------------------------------------------- weigh

enum Weighing {
    Weight(Sheet),
    Weigh(Vec<u8>),
    Revise(Vec<u8>, u8),
}

impl Weighing {
    fn read(words: &mut Words) -> Option<Weighing> {
        match words.next()? {
            b"weight" => Some(Weighing::Weight(words.sheet()?)),
            b"weigh" => Some(Weighing::Weigh(words.hex()?)),
            b"revise" => Some(Weighing::Revise(words.hex()?, words.byte()?)),
            _ => None,
        }
    }
}

pub fn weigh(script: &[u8], way: Way) -> String {
    let mut out = String::new();
    if let Err(number) = weigh_lines(Lines::new(script), way, &mut out) {
        print!(out, "line {number}: not understood");
    }
    out
}

/// Gives the number of a faulty line in the head.
fn weigh_lines(mut lines: Lines, way: Way, out: &mut String) -> Result<(), usize> {
    let kind = lines.head(Kind::read)?;
    let recipe = lines.head(|words| {
        words.word("belief")?;
        Recipe::read(&kind, words)
    })?;
    let mut belief = match recipe.make() {
        Ok(belief) => belief,
        Err(fault) => {
            print!(out, "belief: {fault}");
            return Ok(());
        }
    };
    print!(out, "belief: {}", Figures(&belief));
    for (number, line) in lines {
        match whole(line, Weighing::read) {
            None => print!(out, "line {number}: not understood"),
            Some(Weighing::Weight(sheet)) => print!(out, "weight: {}", belief.weight(&sheet)),
            Some(Weighing::Weigh(bytes)) => {
                match belief.shares(&bytes, way) {
                    Err(refusal) => print!(out, "weigh: {refusal}"),
                    Ok(shares) => {
                        for (answer, mass, heaviest) in shares.possible() {
                            print!(out, "weigh: answer {answer}, mass {mass}, heaviest {heaviest}");
                        }
                    }
                }
            }
            Some(Weighing::Revise(bytes, answer)) => {
                match Question::read(&bytes).and_then(|question| belief.revise(&question, answer)) {
                    Ok(()) => print!(out, "revise: {}", Figures(&belief)),
                    Err(refusal) => print!(out, "revise: {refusal}"),
                }
            }
        }
    }
    Ok(())
}

// ---------------------------------------------------------------- serve

enum Call {
    Enrol(u16, Threshold, Recipe),
    Ask(u16, Vec<u8>),
    Look(u16),
}

impl Call {
    fn read(kind: &Kind, words: &mut Words) -> Option<Call> {
        match words.next()? {
            b"enrol" => {
                let code = words.two_bytes()?;
                let threshold = Threshold { n: words.two_bytes()?, d: words.two_bytes()? };
                Some(Call::Enrol(code, threshold, Recipe::read(kind, words)?))
            }
            b"ask" => Some(Call::Ask(words.two_bytes()?, words.hex()?)),
            b"look" => Some(Call::Look(words.two_bytes()?)),
            _ => None,
        }
    }
}

pub fn serve(script: &[u8], way: Way) -> String {
    let mut out = String::new();
    if let Err(number) = serve_lines(Lines::new(script), way, &mut out) {
        print!(out, "line {number}: not understood");
    }
    out
}

/// Gives the number of a faulty line in the head.
fn serve_lines(mut lines: Lines, way: Way, out: &mut String) -> Result<(), usize> {
    let kind = lines.head(Kind::read)?;
    let (count, tops, sheet) = lines.head(|words| {
        words.word("cabinet")?;
        Some((words.byte()?, words.sheet()?, words.sheet()?))
    })?;
    let places = lines.head(|words| {
        words.word("folders")?;
        words.number(MOST_PLACES)
    })?;
    let size = lines.head(|words| {
        words.word("audit")?;
        words.number(MOST_AUDIT)
    })?;
    let mut cabinet = match Cabinet::new(count, tops, sheet, places as usize, Audit::new(size as usize), way) {
        Ok(cabinet) => cabinet,
        Err(refusal) => {
            print!(out, "cabinet: {refusal}");
            return Ok(());
        }
    };
    print!(out, "cabinet: made");
    for (number, line) in lines {
        match whole(line, |words| Call::read(&kind, words)) {
            None => print!(out, "line {number}: not understood"),
            Some(Call::Enrol(code, threshold, recipe)) => match recipe.make() {
                Err(fault) => print!(out, "enrol {code}: {fault}"),
                Ok(belief) => match cabinet.enrol(code, threshold, belief) {
                    Ok(place) => print!(out, "enrol {code}: place {place}"),
                    Err(refusal) => print!(out, "enrol {code}: {refusal}"),
                },
            },
            Some(Call::Ask(code, bytes)) => match cabinet.ask(code, &bytes) {
                Ok(answer) => print!(out, "ask {code}: answer {answer}"),
                Err(refusal) => print!(out, "ask {code}: {refusal}"),
            },
            Some(Call::Look(code)) => match cabinet.look(code) {
                Ok(look) => {
                    let Threshold { n, d } = look.threshold;
                    print!(out, "look {code}: total {}, peak {}, threshold {n}/{d}", look.total, look.peak);
                }
                Err(refusal) => print!(out, "look {code}: {refusal}"),
            },
        }
    }
    print_audit(cabinet.audit(), out);
    Ok(())
}

fn print_audit(audit: &Audit, out: &mut String) {
    let bytes = audit.bytes();
    print!(out, "audit: {} of {} bytes", bytes.len(), audit.size());
    print!(out, "{}", Hex(bytes));
    print_entries(bytes, out);
}

/// Prints the entries as the reader gives them, and whether the writer makes the same bytes of them.
fn print_entries(bytes: &[u8], out: &mut String) {
    let mut again = Audit::new(bytes.len());
    let mut place = 0;
    loop {
        match audit::read(bytes, place) {
            Err(refusal) => return print!(out, "{refusal}"),
            Ok(None) => break,
            Ok(Some((entry, next))) => {
                match entry {
                    Entry::Enrolled { code, n, d, letter } => {
                        print!(out, "at {place}: enrolled {code}, threshold {n}/{d}, kind {}", letter as char);
                    }
                    Entry::Answered { code, answer, question } => {
                        let at = next - question.len();
                        print!(out, "at {place}: answered {code}, answer {answer}, question {} at {at}", Hex(question));
                    }
                    Entry::Refused { code, number, question } => {
                        let at = next - question.len();
                        print!(out, "at {place}: refused {code}, number {number}, question {} at {at}", Hex(question));
                    }
                }
                again.write(&entry).expect("the reader accepted the entry");
                place = next;
            }
        }
    }
    let same = if again.bytes() == bytes { "same bytes" } else { "DIFFERENT BYTES" };
    print!(out, "written again: {same}");
}
