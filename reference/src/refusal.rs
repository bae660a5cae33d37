//! Refusals: a number from 1 to 14 and a place. The place is a line for
//! 2 to 8, a field for 12 and 13, and 0 otherwise.

use std::fmt;

#[derive(Clone, Copy, Debug, PartialEq, Eq)]
pub struct Refusal {
    pub number: u8,
    pub place: usize,
}

pub fn refusal(number: u8, place: usize) -> Refusal {
    Refusal { number, place }
}

impl fmt::Display for Refusal {
    fn fmt(&self, out: &mut fmt::Formatter<'_>) -> fmt::Result {
        write!(out, "refusal {} line {}", self.number, self.place)
    }
}
