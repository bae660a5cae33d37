//! Graphs as events with atoms and sets of pairs, judged with those sets.

use std::collections::BTreeSet;

use super::holds;
use fence_reference::reading::{Named, Query};
use fence_reference::tree::{Claim, Expr, Line, Postfix};

pub type Pairs = BTreeSet<(usize, usize)>;

#[derive(Clone, Debug, Default)]
pub struct Picture {
    pub atoms: Vec<usize>,
    pub edges: Vec<Pairs>,
}

impl Picture {
    /// The fields of the graph, read without any check.
    pub fn from_bytes(query: &Query, bytes: &[u8]) -> Picture {
        let mut picture = Picture { atoms: Vec::new(), edges: vec![Pairs::new(); query.relations] };
        let mut rest = bytes;
        while !rest.is_empty() {
            if rest[0] == 1 {
                picture.atoms.push(rest[3] as usize);
                rest = &rest[4..];
            } else {
                picture.edges[rest[3] as usize].insert((rest[4] as usize, rest[5] as usize));
                rest = &rest[6..];
            }
        }
        picture
    }

    fn diagonal(&self) -> Pairs {
        (0..self.atoms.len()).map(|event| (event, event)).collect()
    }

    pub fn pairs(&self, query: &Query, expr: &Expr) -> Pairs {
        match expr {
            Expr::Name(name) => match query.names[name] {
                Named::Relation(relation) => self.edges[relation].clone(),
                Named::Let(number) => self.pairs(query, &query.lets[number]),
                Named::Test(_) => panic!("{name} is a test"),
            },
            Expr::Test(test) => {
                self.diagonal().into_iter().filter(|pair| holds(query, test, self.atoms[pair.0])).collect()
            }
            Expr::Union(members) => members.iter().flat_map(|member| self.pairs(query, member)).collect(),
            Expr::Sequence(members) => {
                members.iter().fold(self.diagonal(), |whole, member| compose(&whole, &self.pairs(query, member)))
            }
            Expr::Postfixed(inside, postfixes) => {
                postfixes.iter().fold(self.pairs(query, inside), |pairs, postfix| {
                    let mut pairs = if *postfix == Postfix::Optional { pairs } else { transitive(&pairs) };
                    if *postfix != Postfix::Plus {
                        pairs.extend(self.diagonal());
                    }
                    pairs
                })
            }
        }
    }

    fn breaks(&self, query: &Query, line: &Line) -> bool {
        let edges = |name: &String| match query.names[name] {
            Named::Relation(relation) => &self.edges[relation],
            _ => panic!("{name} is no relation"),
        };
        match line {
            Line::Never(test) => self.atoms.iter().any(|&atom| holds(query, test, atom)),
            Line::Within(name, from, to) => edges(name).iter().any(|pair| {
                !holds(query, from, self.atoms[pair.0]) || !holds(query, to, self.atoms[pair.1])
            }),
            Line::Closed(name) => !compose(edges(name), edges(name)).is_subset(edges(name)),
            Line::AssumeEmpty(expr) => !self.pairs(query, expr).is_empty(),
            Line::AssumeIrreflexive(expr) => self.pairs(query, expr).iter().any(|pair| pair.0 == pair.1),
            _ => false,
        }
    }

    /// The line of the judge call.
    pub fn judged(&self, query: &Query) -> String {
        let broken = query.lines.iter().filter(|(_, line)| self.breaks(query, line)).map(|(number, _)| *number).min();
        let claim = match &query.claim {
            Claim::Include(left, right) => {
                let right = self.pairs(query, right);
                lowest(self.pairs(query, left).difference(&right).copied().collect())
            }
            Claim::Empty(expr) => lowest(self.pairs(query, expr)),
            Claim::Irreflexive(expr) => {
                let loops = self.pairs(query, expr).into_iter().find(|pair| pair.0 == pair.1);
                loops.map_or("holds".to_string(), |pair| format!("breaks {}", pair.0))
            }
        };
        format!("line {} {}", broken.unwrap_or(0), claim)
    }
}

fn lowest(pairs: Pairs) -> String {
    pairs.first().map_or("holds".to_string(), |pair| format!("breaks {} {}", pair.0, pair.1))
}

pub fn compose(one: &Pairs, two: &Pairs) -> Pairs {
    one.iter().flat_map(|a| two.iter().filter(move |b| a.1 == b.0).map(move |b| (a.0, b.1))).collect()
}

pub fn transitive(pairs: &Pairs) -> Pairs {
    let mut closed = pairs.clone();
    loop {
        let more = compose(&closed, pairs);
        let before = closed.len();
        closed.extend(more);
        if closed.len() == before {
            return closed;
        }
    }
}
