//! Reading a query whole: refusals 1 to 8 in the order the paper gives them.

use std::collections::HashMap;

use crate::bytes::{check_bytes, lines};
use crate::counting::check_sizes;
use crate::grammar::{parse_line, Parsed, Wanted};
use crate::refusal::{refusal, Refusal};
use crate::tokens::is_reserved;
use crate::tree::{Claim, Expr, Line};

pub const MOST_TESTS: usize = 6;
pub const MOST_RELATIONS: usize = 16;
pub const MOST_LETS: usize = 32;

/// What a declared name is, with its number among its kind from 0.
#[derive(Clone, Copy, Debug, PartialEq, Eq)]
pub enum Named {
    Test(usize),
    Relation(usize),
    Let(usize),
}

/// A query read without refusal.
#[derive(Debug)]
pub struct Query {
    pub names: HashMap<String, Named>,
    pub tests: usize,
    pub relations: usize,
    pub lets: Vec<Expr>,
    /// All lines that are no declaration and no claim, with their numbers.
    pub lines: Vec<(usize, Line)>,
    pub claim: Claim,
    pub claim_line: usize,
}

impl Query {
    /// The relation of this name; only for names read as relations.
    pub fn relation(&self, name: &str) -> Option<usize> {
        match self.names.get(name) {
            Some(Named::Relation(number)) => Some(*number),
            _ => None,
        }
    }

    pub fn is_ring(&self) -> bool {
        matches!(self.claim, Claim::Irreflexive(_))
    }

    pub fn assumed_empty(&self) -> Vec<&Expr> {
        self.lines
            .iter()
            .filter_map(|(_, line)| match line {
                Line::AssumeEmpty(expr) => Some(expr),
                _ => None,
            })
            .collect()
    }

    pub fn assumed_irreflexive(&self) -> Vec<&Expr> {
        self.lines
            .iter()
            .filter_map(|(_, line)| match line {
                Line::AssumeIrreflexive(expr) => Some(expr),
                _ => None,
            })
            .collect()
    }
}

pub fn read_query(bytes: &[u8]) -> Result<Query, Refusal> {
    check_bytes(bytes)?;
    let mut reader = Reader::default();
    for (index, line) in lines(bytes).into_iter().enumerate() {
        let number = index + 1;
        if reader.claim.is_some() {
            return Err(refusal(7, number));
        }
        let parsed = parse_line(line).map_err(|fault| refusal(fault, number))?;
        reader.check_names(&parsed).map_err(|fault| refusal(fault, number))?;
        reader.take(parsed.line, number).map_err(|fault| refusal(fault, number))?;
    }
    let query = reader.finish()?;
    check_sizes(&query)?;
    Ok(query)
}

#[derive(Default)]
struct Reader {
    names: HashMap<String, Named>,
    tests: usize,
    relations: usize,
    lets: Vec<Expr>,
    lines: Vec<(usize, Line)>,
    claim: Option<(Claim, usize)>,
}

impl Reader {
    /// 5 for a name declared badly or used badly. A let does not know itself.
    fn check_names(&self, parsed: &Parsed) -> Result<(), u8> {
        if let Line::Test(name) | Line::Relation(name) | Line::Let(name, _) = &parsed.line {
            if is_reserved(name) || self.names.contains_key(name) {
                return Err(5);
            }
        }
        for (name, wanted) in &parsed.uses {
            let fits = matches!(
                (self.names.get(name), wanted),
                (Some(Named::Test(_)), Wanted::Test)
                    | (Some(Named::Relation(_)), Wanted::Relation | Wanted::RelationOrLet)
                    | (Some(Named::Let(_)), Wanted::RelationOrLet)
            );
            if !fits {
                return Err(5);
            }
        }
        Ok(())
    }

    /// 6 for one declaration too many; otherwise the line is kept.
    fn take(&mut self, line: Line, number: usize) -> Result<(), u8> {
        match line {
            Line::Test(name) => {
                if self.tests == MOST_TESTS {
                    return Err(6);
                }
                self.names.insert(name, Named::Test(self.tests));
                self.tests += 1;
            }
            Line::Relation(name) => {
                if self.relations == MOST_RELATIONS {
                    return Err(6);
                }
                self.names.insert(name, Named::Relation(self.relations));
                self.relations += 1;
            }
            Line::Let(name, expr) => {
                if self.lets.len() == MOST_LETS {
                    return Err(6);
                }
                self.names.insert(name, Named::Let(self.lets.len()));
                self.lets.push(expr);
            }
            Line::Claim(claim) => self.claim = Some((claim, number)),
            other => self.lines.push((number, other)),
        }
        Ok(())
    }

    fn finish(self) -> Result<Query, Refusal> {
        let (claim, claim_line) = self.claim.ok_or(refusal(7, 0))?;
        Ok(Query {
            names: self.names,
            tests: self.tests,
            relations: self.relations,
            lets: self.lets,
            lines: self.lines,
            claim,
            claim_line,
        })
    }
}
