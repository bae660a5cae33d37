//! Occurrences and leaves of the two sides, counted before anything is
//! expanded. Lets can stand for more leaves than any number type holds, so
//! sums saturate. Refusal 8.

use crate::reading::{Named, Query};
use crate::refusal::{refusal, Refusal};
use crate::tree::{Claim, Expr, Line};

pub const MOST_LEFT: u64 = 64;
pub const MOST_RIGHT_PATH: u64 = 64;
pub const MOST_RIGHT_RING: u64 = 31;
pub const MOST_LEAVES: u64 = 512;

#[derive(Clone, Copy, Debug, Default, PartialEq, Eq)]
pub struct Size {
    pub occurrences: u64,
    pub leaves: u64,
}

impl Size {
    fn and(self, other: Size) -> Size {
        Size {
            occurrences: self.occurrences.saturating_add(other.occurrences),
            leaves: self.leaves.saturating_add(other.leaves),
        }
    }
}

/// One bracketed test.
const TEST: Size = Size { occurrences: 0, leaves: 1 };
/// `any` carries no limits.
const ANY: Size = Size { occurrences: 1, leaves: 1 };

/// The sizes of both sides, and of a1 where it is no part of the right side.
#[derive(Clone, Copy, Debug, PartialEq, Eq)]
pub struct Sizes {
    pub left: Size,
    pub right: Size,
    pub beside: Size,
}

pub fn sizes(query: &Query) -> Sizes {
    let counter = Counter::new(query);
    let a0 = counter.all(&query.assumed_empty());
    let a1 = counter.all(&query.assumed_irreflexive());
    let around = a0.and(ANY).and(ANY);
    match &query.claim {
        Claim::Include(left, y) => Sizes {
            left: counter.size(left),
            right: counter.size(y).and(around).and(TEST),
            beside: a1,
        },
        Claim::Empty(left) => Sizes {
            left: counter.size(left),
            right: TEST.and(around).and(TEST),
            beside: a1,
        },
        Claim::Irreflexive(left) => Sizes {
            left: counter.size(left),
            right: a1.and(around),
            beside: Size::default(),
        },
    }
}

pub fn check_sizes(query: &Query) -> Result<(), Refusal> {
    let Sizes { left, right, beside } = sizes(query);
    let most_right = if query.is_ring() { MOST_RIGHT_RING } else { MOST_RIGHT_PATH };
    let fits = left.occurrences <= MOST_LEFT
        && right.occurrences <= most_right
        && left.leaves <= MOST_LEAVES
        && right.leaves <= MOST_LEAVES
        && beside.leaves <= MOST_LEAVES;
    if fits {
        Ok(())
    } else {
        Err(refusal(8, query.claim_line))
    }
}

struct Counter<'a> {
    query: &'a Query,
    /// For each relation the number of its `within` lines.
    limits: Vec<u64>,
    /// The sizes of the lets so far; each speaks only of earlier ones.
    lets: Vec<Size>,
}

impl<'a> Counter<'a> {
    fn new(query: &'a Query) -> Self {
        let mut limits = vec![0; query.relations];
        for (_, line) in &query.lines {
            if let Line::Within(name, _, _) = line {
                if let Some(relation) = query.relation(name) {
                    limits[relation] += 1;
                }
            }
        }
        let mut counter = Counter { query, limits, lets: Vec::new() };
        for expr in &query.lets {
            let size = counter.size(expr);
            counter.lets.push(size);
        }
        counter
    }

    fn all(&self, exprs: &[&Expr]) -> Size {
        exprs.iter().fold(Size::default(), |sum, expr| sum.and(self.size(expr)))
    }

    fn size(&self, expr: &Expr) -> Size {
        match expr {
            Expr::Name(name) => match self.query.names.get(name) {
                Some(Named::Relation(relation)) => {
                    Size { occurrences: 1, leaves: 1 + 2 * self.limits[*relation] }
                }
                Some(Named::Let(number)) => self.lets[*number],
                _ => Size::default(),
            },
            Expr::Test(_) => TEST,
            Expr::Union(members) | Expr::Sequence(members) => {
                members.iter().fold(Size::default(), |sum, member| sum.and(self.size(member)))
            }
            Expr::Postfixed(inside, _) => self.size(inside),
        }
    }
}
