//! Boxes: at most 64 of them, each with one weight for every sheet inside (docs/BELIEFS.md).

use crate::beliefs::{Found, Shares, Span, GREATEST_TOTAL};
use crate::questions::{Question, Sheet, Step, ANSWERS};
use crate::refusal::Refusal;

const MOST_BOXES: usize = 64;

/// One box.
#[derive(Clone, Copy, Debug)]
pub struct Region {
    low: Sheet,
    high: Sheet,
    weight: u64,
}

impl Region {
    fn sheets(&self) -> u64 {
        (0..4).map(|k| (self.high[k] - self.low[k]) as u64 + 1).product()
    }

    fn mass(&self) -> u64 {
        self.sheets() * self.weight
    }

    /// Calls `each` with every piece of the box under the cuts, until it says no. Gives whether it never did.
    fn pieces(&self, cuts: &Cuts, each: &mut impl FnMut(Region) -> bool) -> bool {
        let [a, b, c, d] = [0, 1, 2, 3].map(|k| cuts.side(k, self.low[k], self.high[k]));
        a.segments().all(|a| {
            b.segments().all(|b| {
                c.segments().all(|c| {
                    d.segments().all(|d| {
                        each(Region { low: [a.0, b.0, c.0, d.0], high: [a.1, b.1, c.1, d.1], weight: self.weight })
                    })
                })
            })
        })
    }
}

/// The places at which each side is cut, in order and each once: between v - 1 and v for each v.
struct Cuts([Vec<u8>; 4]);

impl Cuts {
    fn new(steps: impl IntoIterator<Item = Step>) -> Cuts {
        let mut cuts: [Vec<u8>; 4] = Default::default();
        for step in steps {
            // A limit above 255 cuts nothing.
            if let Ok(v) = u8::try_from(step.limit) {
                cuts[step.field].push(v);
            }
        }
        for side in &mut cuts {
            side.sort_unstable();
            side.dedup();
        }
        Cuts(cuts)
    }

    /// Side k, from `low` to `high`, with the cuts that fall inside: low < v <= high.
    fn side(&self, k: usize, low: u8, high: u8) -> Side<'_> {
        let cuts = &self.0[k];
        let (start, end) = (cuts.partition_point(|&v| v <= low), cuts.partition_point(|&v| v <= high));
        Side { low, high, cuts: &cuts[start..end] }
    }
}

/// One side of a box and the places at which it is cut.
#[derive(Clone, Copy)]
struct Side<'a> {
    low: u8,
    high: u8,
    cuts: &'a [u8],
}

impl<'a> Side<'a> {
    /// The segments, each with its lowest and its highest value.
    fn segments(self) -> impl Iterator<Item = (u8, u8)> + 'a {
        (0..=self.cuts.len()).map(move |i| {
            let low = if i == 0 { self.low } else { self.cuts[i - 1] };
            let high = if i == self.cuts.len() { self.high } else { self.cuts[i] - 1 };
            (low, high)
        })
    }
}

#[derive(Clone, Debug)]
pub struct Boxes {
    span: Span,
    held: Vec<Region>,
}

impl Boxes {
    pub fn new(first: u8, count: u8, tops: Sheet) -> Result<Boxes, Refusal> {
        let span = Span::new(first, count, tops)?;
        Ok(Boxes { span, held: vec![Region { low: [0; 4], high: tops, weight: 1 }] })
    }

    pub fn lean(&mut self, low: Sheet, high: Sheet, factor: u8) -> Result<(), Refusal> {
        // Outside the span the tops are 0, so an edge above its top is also one outside the span that is not 0.
        if (0..4).any(|k| low[k] > high[k] || high[k] > self.span.tops[k]) {
            return Err(Refusal::Value);
        }
        if factor < 2 {
            return Err(Refusal::Amount);
        }
        let cuts = Cuts::new((0..4).flat_map(|field| {
            [low[field] as u16, high[field] as u16 + 1].map(|limit| Step { field, limit })
        }));
        let mut leant = Vec::new();
        for region in &self.held {
            let few = region.pieces(&cuts, &mut |mut piece| {
                if (0..4).all(|k| low[k] <= piece.low[k] && piece.high[k] <= high[k]) {
                    piece.weight *= factor as u64;
                }
                leant.push(piece);
                leant.len() <= MOST_BOXES
            });
            if !few {
                return Err(Refusal::Excess);
            }
        }
        // At most 2 to the 40th before, so at most 255 times that now.
        if leant.iter().map(Region::mass).sum::<u64>() > GREATEST_TOTAL {
            return Err(Refusal::Excess);
        }
        self.held = leant;
        Ok(())
    }

    pub fn span(&self) -> Span {
        self.span
    }

    pub fn total(&self) -> u64 {
        self.held.iter().map(Region::mass).sum()
    }

    pub fn peak(&self) -> u64 {
        self.held.iter().map(|region| region.weight).max().unwrap_or(0)
    }

    pub fn is_whole(&self) -> bool {
        // No sheet lies in two boxes.
        self.held.iter().map(Region::sheets).sum::<u64>() == self.span.sheets()
    }

    pub fn weight(&self, sheet: &Sheet) -> u64 {
        let inside = |region: &Region| {
            (0..4).all(|k| !self.span.has(k) || (region.low[k] <= sheet[k] && sheet[k] <= region.high[k]))
        };
        self.held.iter().find(|region| inside(region)).map_or(0, |region| region.weight)
    }

    pub fn judge(&self, question: &Question) -> Option<(Shares, Found)> {
        if !question.is_stepped() || !self.span.covers(question) {
            return None;
        }
        let cuts = Cuts::new(question.steps().iter().copied());
        let mut shares = Shares::default();
        let mut counts = [0; ANSWERS];
        let mut found = Vec::new();
        for region in &self.held {
            let few = region.pieces(&cuts, &mut |piece| {
                // No step parts the sheets of a piece, so all give the answer of its lowest one.
                let answer = question.answer(&piece.low);
                shares.add(answer, piece.sheets(), piece.weight);
                found.push((piece, answer));
                counts[answer as usize] += 1;
                counts[answer as usize] <= MOST_BOXES
            });
            if !few {
                return None;
            }
        }
        Some((shares, Found::Pieces(found)))
    }

    /// Mass and heaviest of one answer, in a pass of its own.
    pub fn share(&self, question: &Question, answer: u8) -> Option<(u64, u64)> {
        if !question.is_stepped() || !self.span.covers(question) {
            return None;
        }
        let cuts = Cuts::new(question.steps().iter().copied());
        let mut counts = [0; ANSWERS];
        let (mut mass, mut heaviest) = (0, 0);
        for region in &self.held {
            let few = region.pieces(&cuts, &mut |piece| {
                let given = question.answer(&piece.low);
                if given == answer {
                    mass += piece.mass();
                    heaviest = heaviest.max(piece.weight);
                }
                counts[given as usize] += 1;
                counts[given as usize] <= MOST_BOXES
            });
            if !few {
                return None;
            }
        }
        Some((mass, heaviest))
    }

    pub fn keep(&mut self, pieces: Vec<(Region, u8)>, answer: u8) {
        self.held = pieces.into_iter().filter(|&(_, other)| other == answer).map(|(piece, _)| piece).collect();
    }
}
