//! Why a call is declined (docs/REFUSALS.md).

use std::fmt;

#[derive(Clone, Copy, Debug, PartialEq, Eq)]
pub enum Refusal {
    Span,
    Value,
    Amount,
    Sides,
    Excess,
    Code,
    Full,
    Unfit,
    Unreadable(usize),
    Bound(usize),
    Short,
    NotCarried,
    NoMass,
    TooTelling,
}

impl Refusal {
    pub fn number(self) -> u8 {
        match self {
            Refusal::Span => 1,
            Refusal::Value => 2,
            Refusal::Amount => 3,
            Refusal::Sides => 4,
            Refusal::Excess => 5,
            Refusal::Code => 6,
            Refusal::Full => 7,
            Refusal::Unfit => 8,
            Refusal::Unreadable(_) => 9,
            Refusal::Bound(_) => 10,
            Refusal::Short => 11,
            Refusal::NotCarried => 12,
            Refusal::NoMass => 13,
            Refusal::TooTelling => 14,
        }
    }
}

impl fmt::Display for Refusal {
    fn fmt(&self, f: &mut fmt::Formatter) -> fmt::Result {
        write!(f, "refused {}", self.number())?;
        match self {
            Refusal::Unreadable(place) | Refusal::Bound(place) => write!(f, " at {place}"),
            _ => Ok(()),
        }
    }
}
