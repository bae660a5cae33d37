//! The definitions, followed by direct recursion over the expressions of a
//! query: no automaton, no replacement, no search. A text is a guarded word,
//! or a prefix, whose last atom is not known.

#![allow(dead_code)]

pub mod graphs;
pub mod sheets;
pub mod standings;

use std::collections::BTreeSet;

use fence_reference::reading::{Named, Query};
use fence_reference::tree::{Claim, Expr, Line, Postfix, Test};

pub type Places = BTreeSet<usize>;

/// Place i stands before relation i; a word has one atom more than relations.
#[derive(Clone, Debug, PartialEq, Eq, PartialOrd, Ord)]
pub struct Text {
    pub atoms: Vec<usize>,
    pub relations: Vec<usize>,
}

impl Text {
    pub fn length(&self) -> usize {
        self.relations.len()
    }

    pub fn numbers(&self) -> Vec<usize> {
        let mut numbers = Vec::new();
        for place in 0..=self.length() {
            numbers.extend(self.atoms.get(place));
            numbers.extend(self.relations.get(place));
        }
        numbers
    }

    pub fn single(atom: usize) -> Text {
        Text { atoms: vec![atom], relations: Vec::new() }
    }

    /// The places from `start` to `end`, both atoms included where known.
    pub fn part(&self, start: usize, end: usize) -> Text {
        Text {
            atoms: self.atoms[start..(end + 1).min(self.atoms.len())].to_vec(),
            relations: self.relations[start..end].to_vec(),
        }
    }
}

pub fn holds(query: &Query, test: &Test, atom: usize) -> bool {
    match test {
        Test::Name(name) => match query.names[name] {
            Named::Test(number) => (atom / (1 << number)) % 2 == 1,
            _ => panic!("{name} is no test"),
        },
        Test::True => true,
        Test::False => false,
        Test::Not(inside) => !holds(query, inside, atom),
        Test::And(members) => members.iter().all(|member| holds(query, member, atom)),
        Test::Or(members) => members.iter().any(|member| holds(query, member, atom)),
    }
}

pub fn live_atoms(query: &Query) -> Vec<usize> {
    let removed = |atom: usize| {
        query.lines.iter().any(|(_, line)| matches!(line, Line::Never(test) if holds(query, test, atom)))
    };
    (0..1 << query.tests).filter(|&atom| !removed(atom)).collect()
}

/// One reading of a text through an expression.
pub struct Run<'a> {
    pub query: &'a Query,
    pub text: &'a Text,
    /// Reading begins right after this occurrence, at place 0.
    pub resume: Option<usize>,
    /// Occurrences met so far in written order.
    pub met: usize,
    /// Occurrences that read the last relation of the text.
    pub stopped: Places,
}

impl<'a> Run<'a> {
    pub fn new(query: &'a Query, text: &'a Text, resume: Option<usize>) -> Self {
        Run { query, text, resume, met: 0, stopped: Places::new() }
    }

    /// Where reading may stand after the expression, begun at `starts`.
    pub fn through(&mut self, expr: &Expr, starts: &Places) -> Places {
        match expr {
            Expr::Name(name) => match self.query.names[name] {
                Named::Relation(relation) => self.relation(name, relation, starts),
                Named::Let(number) => self.through(&self.query.lets[number], starts),
                Named::Test(_) => panic!("{name} is a test"),
            },
            Expr::Test(test) => {
                let passes = |place: &&usize| {
                    self.text.atoms.get(**place).is_some_and(|&atom| holds(self.query, test, atom))
                };
                starts.iter().filter(passes).copied().collect()
            }
            Expr::Union(members) => members.iter().flat_map(|member| self.through(member, starts)).collect(),
            Expr::Sequence(members) => {
                let mut places = starts.clone();
                for member in members {
                    places = self.through(member, &places);
                }
                places
            }
            Expr::Postfixed(inside, postfixes) => self.repeated(inside, postfixes, starts),
        }
    }

    fn repeated(&mut self, inside: &Expr, postfixes: &[Postfix], starts: &Places) -> Places {
        let Some((last, earlier)) = postfixes.split_last() else {
            return self.through(inside, starts);
        };
        let met = self.met;
        let mut entered = starts.clone();
        let mut ends;
        loop {
            self.met = met;
            ends = self.repeated(inside, earlier, &entered);
            let before = entered.len();
            if *last != Postfix::Optional {
                entered.extend(&ends);
            }
            if entered.len() == before {
                break;
            }
        }
        if *last != Postfix::Plus {
            ends.extend(starts);
        }
        ends
    }

    /// [T];r;[U] with all limits of r, repeated if r is closed.
    fn relation(&mut self, name: &str, relation: usize, starts: &Places) -> Places {
        self.met += 1;
        let mut closed = false;
        let mut limits = Vec::new();
        for (_, line) in &self.query.lines {
            match line {
                Line::Within(limited, from, to) if limited == name => limits.push((from, to)),
                Line::Closed(repeated) if repeated == name => closed = true,
                _ => {}
            }
        }
        let query = self.query;
        let text = self.text;
        let may_leave = |place: usize| limits.iter().all(|(from, _)| holds(query, from, text.atoms[place]));
        let may_enter = |place: usize| {
            text.atoms.get(place).is_some_and(|&atom| limits.iter().all(|(_, to)| holds(query, to, atom)))
        };
        let mut read = Places::new();
        if self.resume == Some(self.met) {
            read.insert(0);
        }
        let mut entered = starts.clone();
        loop {
            for &place in &entered {
                if place < text.length() && text.relations[place] == relation && may_leave(place) {
                    read.insert(place + 1);
                    if place + 1 == text.length() {
                        self.stopped.insert(self.met);
                    }
                }
            }
            let ends: Places = read.iter().copied().filter(|&place| may_enter(place)).collect();
            let before = entered.len();
            if closed {
                entered.extend(&ends);
            }
            if entered.len() == before {
                return ends;
            }
        }
    }

    /// any*: one occurrence that reads every relation.
    pub fn any_star(&mut self, starts: &Places) -> Places {
        self.met += 1;
        let mut places = starts.clone();
        if self.resume == Some(self.met) {
            places.insert(0);
        }
        for place in 0..self.text.length() {
            if places.contains(&place) {
                places.insert(place + 1);
                if place + 1 == self.text.length() {
                    self.stopped.insert(self.met);
                }
            }
        }
        places
    }
}

/// Is the text, a word, among the words of the expression?
pub fn matches(query: &Query, expr: &Expr, word: &Text) -> bool {
    Run::new(query, word, None).through(expr, &Places::from([0])).contains(&word.length())
}

/// Does some part of the word belong to an assumed-empty expression?
fn holds_assumed_empty(query: &Query, word: &Text) -> bool {
    query.assumed_empty().iter().any(|expr| {
        (0..=word.length()).any(|start| (start..=word.length()).any(|end| matches(query, expr, &word.part(start, end))))
    })
}

fn is_left_word(query: &Query, word: &Text) -> bool {
    match &query.claim {
        Claim::Include(left, _) | Claim::Empty(left) | Claim::Irreflexive(left) => matches(query, left, word),
    }
}

/// A right word of a ring claim.
fn is_ring_right_word(query: &Query, word: &Text) -> bool {
    query.assumed_irreflexive().iter().any(|expr| matches(query, expr, word)) || holds_assumed_empty(query, word)
}

/// A right word of a path claim.
fn is_path_right_word(query: &Query, word: &Text) -> bool {
    let asked = match &query.claim {
        Claim::Include(_, right) => matches(query, right, word),
        _ => false,
    };
    let zero = |atom: &usize| {
        query.assumed_irreflexive().iter().any(|expr| matches(query, expr, &Text::single(*atom)))
    };
    asked || holds_assumed_empty(query, word) || word.atoms.iter().any(zero)
}

/// Some rotation, repeated at most `most` times, is a right word.
fn covered(query: &Query, word: &Text, most: usize) -> bool {
    let turns = word.length().max(1);
    (0..turns).any(|turn| {
        let start = word.atoms[turn];
        if is_ring_right_word(query, &Text::single(start)) {
            return true;
        }
        let mut relations = word.relations.clone();
        relations.rotate_left(turn.min(word.length()));
        let mut around = word.atoms[..word.length()].to_vec();
        around.rotate_left(turn.min(word.length()));
        (1..=most).any(|times| {
            let mut atoms = around.repeat(times);
            atoms.push(start);
            is_ring_right_word(query, &Text { atoms, relations: relations.repeat(times) })
        })
    })
}

/// Does the word refute the claim? `right` is the number of right occurrences.
pub fn refutes(query: &Query, word: &Text, right: usize) -> bool {
    let live = live_atoms(query);
    if !word.atoms.iter().all(|atom| live.contains(atom)) || !is_left_word(query, word) {
        return false;
    }
    if query.is_ring() {
        word.atoms[0] == word.atoms[word.length()] && !covered(query, word, right.max(1))
    } else {
        !is_path_right_word(query, word)
    }
}
