//! Judging an execution graph: the first line it breaks, and whether the
//! claim holds. Relations mean the listed edges, without limits or closing.

use std::fmt;

use crate::graph::{closure, composed, Graph, Pairs, MOST_EVENTS};
use crate::reading::{Named, Query};
use crate::sides::satisfying;
use crate::tree::{Claim, Expr, Line, Postfix, Test};

#[derive(Clone, Copy, Debug, PartialEq, Eq)]
pub enum Outcome {
    Holds,
    BreaksAt(usize),
    BreaksBetween(usize, usize),
}

#[derive(Clone, Copy, Debug, PartialEq, Eq)]
pub struct Judgement {
    /// The first broken line, or 0.
    pub line: usize,
    pub claim: Outcome,
}

impl fmt::Display for Judgement {
    fn fmt(&self, out: &mut fmt::Formatter<'_>) -> fmt::Result {
        match self.claim {
            Outcome::Holds => write!(out, "line {} holds", self.line),
            Outcome::BreaksAt(event) => write!(out, "line {} breaks {}", self.line, event),
            Outcome::BreaksBetween(from, to) => write!(out, "line {} breaks {} {}", self.line, from, to),
        }
    }
}

pub fn judge(query: &Query, graph: &Graph) -> Judgement {
    let mut meaning = Meaning { query, graph, lets: Vec::new() };
    for expr in &query.lets {
        let pairs = meaning.pairs(expr);
        meaning.lets.push(pairs);
    }
    let broken = query.lines.iter().find(|(_, line)| meaning.breaks(line));
    let line = broken.map_or(0, |(number, _)| *number);
    let claim = match &query.claim {
        Claim::Include(left, right) => {
            let right = meaning.pairs(right);
            let mut beyond = meaning.pairs(left);
            for (row, allowed) in beyond.iter_mut().zip(right) {
                *row &= !allowed;
            }
            lowest_pair(&beyond)
        }
        Claim::Empty(expr) => lowest_pair(&meaning.pairs(expr)),
        Claim::Irreflexive(expr) => lowest_loop(&meaning.pairs(expr)),
    };
    Judgement { line, claim }
}

fn lowest_pair(pairs: &Pairs) -> Outcome {
    match pairs.iter().position(|&row| row != 0) {
        Some(from) => Outcome::BreaksBetween(from, pairs[from].trailing_zeros() as usize),
        None => Outcome::Holds,
    }
}

fn lowest_loop(pairs: &Pairs) -> Outcome {
    match (0..MOST_EVENTS).find(|&event| pairs[event] >> event & 1 == 1) {
        Some(event) => Outcome::BreaksAt(event),
        None => Outcome::Holds,
    }
}

struct Meaning<'a> {
    query: &'a Query,
    graph: &'a Graph,
    /// The pairs of the lets so far; each speaks only of earlier ones.
    lets: Vec<Pairs>,
}

impl Meaning<'_> {
    fn breaks(&self, line: &Line) -> bool {
        match line {
            Line::Never(test) => self.events(test) != 0,
            Line::Within(name, from, to) => {
                let (from, to) = (self.events(from), self.events(to));
                let pairs = self.named(name);
                pairs.iter().enumerate().any(|(event, &row)| row != 0 && (from >> event & 1 == 0 || row & !to != 0))
            }
            Line::Closed(name) => {
                let pairs = self.named(name);
                composed(&pairs, &pairs).iter().zip(pairs).any(|(&row, edges)| row & !edges != 0)
            }
            Line::AssumeEmpty(expr) => lowest_pair(&self.pairs(expr)) != Outcome::Holds,
            Line::AssumeIrreflexive(expr) => lowest_loop(&self.pairs(expr)) != Outcome::Holds,
            _ => false,
        }
    }

    /// The events that satisfy a test.
    fn events(&self, test: &Test) -> u64 {
        let atoms = satisfying(self.query, test);
        let satisfies = |atom: &usize| atoms >> atom & 1 == 1;
        self.graph.events.iter().enumerate().filter(|(_, atom)| satisfies(atom)).fold(0, |set, (event, _)| set | 1 << event)
    }

    fn named(&self, name: &str) -> Pairs {
        match self.query.names.get(name) {
            Some(Named::Relation(relation)) => self.graph.edges[*relation],
            Some(Named::Let(number)) => self.lets[*number],
            _ => [0; MOST_EVENTS],
        }
    }

    fn pairs(&self, expr: &Expr) -> Pairs {
        match expr {
            Expr::Name(name) => self.named(name),
            Expr::Test(test) => each_with_itself(self.events(test)),
            Expr::Union(members) => {
                let mut sum = [0; MOST_EVENTS];
                for member in members {
                    add(&mut sum, &self.pairs(member));
                }
                sum
            }
            Expr::Sequence(members) => {
                let mut whole = self.all_with_themselves();
                for member in members {
                    whole = composed(&whole, &self.pairs(member));
                }
                whole
            }
            Expr::Postfixed(inside, postfixes) => {
                let mut pairs = self.pairs(inside);
                for postfix in postfixes {
                    if *postfix != Postfix::Optional {
                        pairs = closure(&pairs);
                    }
                    if *postfix != Postfix::Plus {
                        add(&mut pairs, &self.all_with_themselves());
                    }
                }
                pairs
            }
        }
    }

    fn all_with_themselves(&self) -> Pairs {
        let events = self.graph.events.len();
        each_with_itself(if events == MOST_EVENTS { u64::MAX } else { (1 << events) - 1 })
    }
}

fn each_with_itself(events: u64) -> Pairs {
    let mut pairs = [0; MOST_EVENTS];
    for (event, row) in pairs.iter_mut().enumerate() {
        *row = events & (1 << event);
    }
    pairs
}

fn add(sum: &mut Pairs, more: &Pairs) {
    for (row, new) in sum.iter_mut().zip(more) {
        *row |= new;
    }
}
