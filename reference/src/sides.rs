//! Words and sides: atoms, the replacement of relations by their limits and
//! closures, the expansion of lets, and the two sides of the claim.

use crate::automaton::Automaton;
use crate::reading::{Named, Query};
use crate::tree::{Claim, Expr, Line, Postfix, Test};

/// A set of atoms: bit a for atom a, at most 64 of them.
pub type Atoms = u64;

/// An expression after replacement. Its steps are single steps of words.
#[derive(Clone, Debug)]
pub enum Side {
    Step(Letter),
    Test(Atoms),
    Union(Vec<Side>),
    Sequence(Vec<Side>),
    Postfixed(Box<Side>, Vec<Postfix>),
}

/// What an occurrence reads: one relation, or whichever.
#[derive(Clone, Copy, Debug, PartialEq, Eq)]
pub enum Letter {
    Relation(usize),
    Any,
}

impl Letter {
    pub fn reads(self, relation: usize) -> bool {
        self == Letter::Any || self == Letter::Relation(relation)
    }
}

/// The claim as a question about words.
pub struct Problem {
    pub ring: bool,
    pub tests: usize,
    pub relations: usize,
    /// The atoms under no `never`.
    pub live: Atoms,
    pub left: Automaton,
    pub right: Automaton,
}

impl Problem {
    pub fn new(query: &Query) -> Problem {
        let words = Words { query };
        let (left, right) = words.sides();
        Problem {
            ring: query.is_ring(),
            tests: query.tests,
            relations: query.relations,
            live: words.live(),
            left: Automaton::new(&left, query.relations),
            right: Automaton::new(&right, query.relations),
        }
    }

    /// Atoms are the numbers below this one, removed ones too.
    pub fn atoms(&self) -> usize {
        1 << self.tests
    }

    pub fn is_live(&self, atom: usize) -> bool {
        self.live >> atom & 1 == 1
    }

    pub fn live_atoms(&self) -> impl Iterator<Item = usize> + '_ {
        (0..self.atoms()).filter(|&atom| self.is_live(atom))
    }

    /// Does the word of length 0 that is this atom refute the claim?
    pub fn single_atom_refutes(&self, atom: usize) -> bool {
        (self.live & self.left.empty & !self.right.empty) >> atom & 1 == 1
    }
}

/// The set of all atoms over so many tests.
pub fn all_atoms(tests: usize) -> Atoms {
    if tests >= 6 {
        Atoms::MAX
    } else {
        (1 << (1 << tests)) - 1
    }
}

/// The atoms that satisfy a test, removed ones too.
pub fn satisfying(query: &Query, test: &Test) -> Atoms {
    let all = all_atoms(query.tests);
    match test {
        Test::Name(name) => match query.names.get(name) {
            Some(Named::Test(number)) => {
                (0..1usize << query.tests)
                    .filter(|atom| atom >> number & 1 == 1)
                    .fold(0, |set, atom| set | 1 << atom)
            }
            _ => 0,
        },
        Test::True => all,
        Test::False => 0,
        Test::Not(inside) => all & !satisfying(query, inside),
        Test::And(members) => members.iter().fold(all, |set, member| set & satisfying(query, member)),
        Test::Or(members) => members.iter().fold(0, |set, member| set | satisfying(query, member)),
    }
}

struct Words<'a> {
    query: &'a Query,
}

impl Words<'_> {
    fn live(&self) -> Atoms {
        self.query.lines.iter().fold(all_atoms(self.query.tests), |live, (_, line)| match line {
            Line::Never(test) => live & !satisfying(self.query, test),
            _ => live,
        })
    }

    /// The left side, and the right side in the order of its numbering:
    /// y or a1, the first any, a0, the last any.
    fn sides(&self) -> (Side, Side) {
        let a0: Vec<Side> = self.query.assumed_empty().into_iter().map(|e| self.replaced(e)).collect();
        let a1: Vec<Side> = self.query.assumed_irreflexive().into_iter().map(|e| self.replaced(e)).collect();
        match &self.query.claim {
            Claim::Include(left, y) => {
                (self.replaced(left), Side::Union(vec![self.replaced(y), around(a0, Some(a1))]))
            }
            Claim::Empty(left) => {
                (self.replaced(left), Side::Union(vec![Side::Test(0), around(a0, Some(a1))]))
            }
            Claim::Irreflexive(left) => {
                (self.replaced(left), Side::Union(vec![Side::Union(a1), around(a0, None)]))
            }
        }
    }

    /// Lets expanded, limits put around their relations, closed relations repeated.
    fn replaced(&self, expr: &Expr) -> Side {
        match expr {
            Expr::Name(name) => match self.query.names.get(name) {
                Some(Named::Relation(relation)) => self.relation(*relation),
                Some(Named::Let(number)) => self.replaced(&self.query.lets[*number]),
                _ => Side::Test(0),
            },
            Expr::Test(test) => Side::Test(satisfying(self.query, test)),
            Expr::Union(members) => Side::Union(members.iter().map(|m| self.replaced(m)).collect()),
            Expr::Sequence(members) => Side::Sequence(members.iter().map(|m| self.replaced(m)).collect()),
            Expr::Postfixed(inside, postfixes) => {
                Side::Postfixed(Box::new(self.replaced(inside)), postfixes.clone())
            }
        }
    }

    fn relation(&self, relation: usize) -> Side {
        let mut before = Vec::new();
        let mut after = Vec::new();
        let mut closed = false;
        for (_, line) in &self.query.lines {
            match line {
                Line::Within(name, from, to) if self.query.relation(name) == Some(relation) => {
                    before.push(Side::Test(satisfying(self.query, from)));
                    after.push(Side::Test(satisfying(self.query, to)));
                }
                Line::Closed(name) if self.query.relation(name) == Some(relation) => closed = true,
                _ => {}
            }
        }
        let mut parts = before;
        parts.push(Side::Step(Letter::Relation(relation)));
        parts.append(&mut after);
        let limited = Side::Sequence(parts);
        if closed {
            Side::Postfixed(Box::new(limited), vec![Postfix::Plus])
        } else {
            limited
        }
    }
}

/// any*;(a0 | zero);any*, where zero is the set of length-0 words of a1 and
/// stands there only for path claims.
fn around(a0: Vec<Side>, a1_of_path: Option<Vec<Side>>) -> Side {
    let any_star = || Side::Postfixed(Box::new(Side::Step(Letter::Any)), vec![Postfix::Star]);
    let mut middle = a0;
    if let Some(a1) = a1_of_path {
        middle.push(Side::Test(length_zero_words(&Side::Union(a1))));
    }
    Side::Sequence(vec![any_star(), Side::Union(middle), any_star()])
}

/// The atoms that are words of this side.
pub fn length_zero_words(side: &Side) -> Atoms {
    match side {
        Side::Step(_) => 0,
        Side::Test(atoms) => *atoms,
        Side::Union(members) => members.iter().fold(0, |set, m| set | length_zero_words(m)),
        Side::Sequence(members) => members.iter().fold(Atoms::MAX, |set, m| set & length_zero_words(m)),
        Side::Postfixed(inside, postfixes) => {
            if postfixes.iter().all(|postfix| *postfix == Postfix::Plus) {
                length_zero_words(inside)
            } else {
                Atoms::MAX
            }
        }
    }
}
