//! Random good queries of several sizes.

use super::print::{Printer, Spacing};
use super::rng::Rng;
use super::trees::{expr, part, short_test, test, turned, weaker, Scope};
use crate::tree::{Claim, Expr, Line, Test};

/// The most of each thing a query may get.
#[derive(Clone, Copy)]
pub struct Shape {
    pub tests: usize,
    pub relations: usize,
    pub lets: usize,
    pub leaves: usize,
    pub limits: usize,
    pub assumptions: usize,
}

pub const TINY: Shape = Shape { tests: 1, relations: 2, lets: 1, leaves: 3, limits: 2, assumptions: 2 };
pub const SMALL: Shape = Shape { tests: 3, relations: 3, lets: 2, leaves: 5, limits: 4, assumptions: 2 };
pub const MEDIUM: Shape = Shape { tests: 4, relations: 6, lets: 5, leaves: 12, limits: 8, assumptions: 4 };
pub const LARGE: Shape = Shape { tests: 6, relations: 16, lets: 12, leaves: 45, limits: 16, assumptions: 6 };

const TEST_NAMES: [&str; 16] = [
    "R", "W", "F", "SC", "ACQ", "REL", "RLX", "NA", "T", "U", "X", "Test", "isRead", "t0", "A1", "abcdefghijklmnop",
];
const RELATION_NAMES: [&str; 28] = [
    "po", "rf", "co", "fr", "r", "s", "hb", "mo", "rmw", "addr", "data", "ctrl", "a", "b", "c", "q1", "q2", "inn", "of",
    "part", "rule", "Rel", "sb", "sw", "z", "x9", "ABCDEFGHIJKLMNOP", "tests",
];
const LET_NAMES: [&str; 16] = [
    "eco", "ob", "prop", "psc", "scb", "fre", "e", "f", "g", "com", "obs", "L1", "L2", "loc", "hbl", "ppo",
];

pub fn any_shape(rng: &mut Rng) -> Shape {
    match rng.below(100) {
        0..=24 => TINY,
        25..=64 => SMALL,
        65..=89 => MEDIUM,
        _ => LARGE,
    }
}

/// The lines of a random query; the claim is the last.
pub fn query_lines(rng: &mut Rng, shape: Shape) -> Vec<Line> {
    let mut making = Making { scope: Scope::default(), lines: Vec::new(), shape };
    let tests = rng.below(shape.tests + 1);
    let relations = if rng.chance(3) { 0 } else { rng.between(1, shape.relations) };
    making.declare(rng, tests, relations);
    let (limits, lets) = (rng.below(shape.limits + 1), rng.below(shape.lets + 1));
    let mut actions = vec![0; limits];
    actions.extend(vec![1; lets]);
    while !actions.is_empty() {
        match actions.swap_remove(rng.below(actions.len())) {
            0 => making.limit(rng),
            _ => making.define(rng),
        }
    }
    making.conclude(rng);
    making.lines
}

struct Making {
    scope: Scope,
    lines: Vec<Line>,
    shape: Shape,
}

impl Making {
    fn declare(&mut self, rng: &mut Rng, tests: usize, relations: usize) {
        let mut left = (tests, relations);
        while left != (0, 0) {
            let a_test = left.1 == 0 || left.0 > 0 && rng.chance(50);
            if a_test {
                let name = self.fresh(rng, &TEST_NAMES);
                self.scope.tests.push(name.clone());
                self.lines.push(Line::Test(name));
                left.0 -= 1;
            } else {
                let name = self.fresh(rng, &RELATION_NAMES);
                self.scope.relations.push(name.clone());
                self.lines.push(Line::Relation(name));
                left.1 -= 1;
            }
        }
    }

    fn fresh(&self, rng: &mut Rng, from: &[&str]) -> String {
        loop {
            let name = rng.pick(from).to_string();
            let scope = &self.scope;
            if !scope.tests.contains(&name) && !scope.relations.contains(&name) && !scope.lets.contains(&name) {
                return name;
            }
        }
    }

    fn limit(&mut self, rng: &mut Rng) {
        let line = if self.scope.relations.is_empty() || rng.chance(25) {
            let leaves = rng.between(1, 2);
            let never = if self.scope.tests.len() > 1 && rng.chance(80) {
                Test::And(vec![test(rng, &self.scope, 1), test(rng, &self.scope, leaves)])
            } else {
                test(rng, &self.scope, leaves)
            };
            Line::Never(never)
        } else {
            let relation = rng.pick(&self.scope.relations).clone();
            if rng.chance(35) {
                Line::Closed(relation)
            } else {
                Line::Within(relation, short_test(rng, &self.scope), short_test(rng, &self.scope))
            }
        };
        self.lines.push(line);
    }

    fn define(&mut self, rng: &mut Rng) {
        let leaves = rng.between(1, self.shape.leaves.div_ceil(2));
        let defined = expr(rng, &self.scope, leaves);
        let name = self.fresh(rng, &LET_NAMES);
        self.lines.push(Line::Let(name.clone(), defined));
        self.scope.lets.push(name);
    }

    fn expr(&mut self, rng: &mut Rng) -> Expr {
        let leaves = rng.between(1, self.shape.leaves);
        expr(rng, &self.scope, leaves)
    }

    /// The assumptions and the claim, made to suit one another.
    fn conclude(&mut self, rng: &mut Rng) {
        let claimed = self.expr(rng);
        let claim = match rng.below(10) {
            0..=3 => {
                let right = if rng.chance(70) {
                    let mut right = claimed.clone();
                    for _ in 0..rng.between(1, 3) {
                        right = weaker(rng, &self.scope, &right);
                    }
                    right
                } else {
                    self.expr(rng)
                };
                Claim::Include(claimed.clone(), right)
            }
            4..=5 => Claim::Empty(claimed.clone()),
            _ => Claim::Irreflexive(claimed.clone()),
        };
        let ring = matches!(claim, Claim::Irreflexive(_));
        for _ in 0..rng.below(self.shape.assumptions + 1) {
            let assumed = match rng.below(4) {
                0 => self.expr(rng),
                1 => part(rng, &claimed),
                2 => weaker(rng, &self.scope, &claimed),
                _ => {
                    let same = turned(rng, &claimed);
                    if rng.chance(50) { weaker(rng, &self.scope, &same) } else { same }
                }
            };
            let irreflexive = rng.chance(if ring { 75 } else { 30 });
            let line = if irreflexive { Line::AssumeIrreflexive(assumed) } else { Line::AssumeEmpty(assumed) };
            self.lines.push(line);
        }
        if rng.chance(15) {
            self.limit(rng);
        }
        self.lines.push(Line::Claim(claim));
    }
}

/// The bytes of a query with one way of spacing.
pub fn printed(rng: &mut Rng, lines: &[Line]) -> Vec<u8> {
    let spacing = *rng.pick(&[Spacing::Tidy, Spacing::Tidy, Spacing::Tight, Spacing::Loose]);
    let brackets = if rng.chance(70) { 0 } else { 20 };
    let mut printer = Printer { rng, spacing, brackets };
    let mut bytes = Vec::new();
    for line in lines {
        bytes.extend(printer.line(line).into_bytes());
        bytes.push(b'\n');
    }
    bytes
}

pub fn query(rng: &mut Rng, shape: Shape) -> Vec<u8> {
    let lines = query_lines(rng, shape);
    printed(rng, &lines)
}

/// A ring claim whose cover is its turn begun elsewhere and repeated, or a
/// piece that lies across the end of one turn. Now and then a step is changed,
/// so that nothing covers it.
pub fn turning_query(rng: &mut Rng) -> Vec<u8> {
    let tests = rng.below(3);
    let mut lines: Vec<Line> = ["T", "U"][..tests].iter().map(|name| Line::Test(name.to_string())).collect();
    let names = ["a", "b", "c"];
    let relations = rng.between(2, 3);
    lines.extend(names[..relations].iter().map(|name| Line::Relation(name.to_string())));
    if rng.chance(20) {
        lines.push(Line::Closed(rng.pick(&names[..relations]).to_string()));
    }
    let step = |rng: &mut Rng| {
        let relation = Expr::Name(rng.pick(&names[..relations]).to_string());
        match rng.below(if tests == 0 { 1 } else { 4 }) {
            3 => vec![Expr::Test(Test::Name(["T", "U"][rng.below(tests)].to_string())), relation],
            _ => vec![relation],
        }
    };
    let turn: Vec<Vec<Expr>> = (0..rng.between(2, 3)).map(|_| step(rng)).collect();
    let mut around = turn.clone();
    around.rotate_left(rng.below(turn.len()));
    let mut covering = vec![around; rng.between(1, 3)].concat();
    if rng.chance(15) {
        let at = rng.below(covering.len());
        covering[at] = step(rng);
    }
    let across = rng.chance(25);
    if across {
        covering.truncate(rng.between(1, covering.len()));
    }
    let sequence = |steps: Vec<Vec<Expr>>| Expr::Sequence(steps.into_iter().flatten().collect());
    let covering = sequence(covering);
    lines.push(if across { Line::AssumeEmpty(covering) } else { Line::AssumeIrreflexive(covering) });
    lines.push(Line::Claim(Claim::Irreflexive(sequence(turn))));
    printed(rng, &lines)
}
