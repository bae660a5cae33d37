//! Random trees over the names declared so far, and changes that make an
//! expression weaker or turn it, so that many claims are proved.

use super::rng::Rng;
use crate::tree::{Expr, Postfix, Test};

/// The names that may be used.
#[derive(Clone, Default)]
pub struct Scope {
    pub tests: Vec<String>,
    pub relations: Vec<String>,
    pub lets: Vec<String>,
}

pub fn test(rng: &mut Rng, scope: &Scope, leaves: usize) -> Test {
    if leaves <= 1 {
        let leaf = if scope.tests.is_empty() || rng.chance(8) {
            if rng.chance(60) { Test::True } else { Test::False }
        } else {
            Test::Name(rng.pick(&scope.tests).clone())
        };
        return if rng.chance(25) { Test::Not(Box::new(leaf)) } else { leaf };
    }
    let left = rng.between(1, leaves - 1);
    let members = vec![test(rng, scope, left), test(rng, scope, leaves - left)];
    let joined = if rng.chance(50) { Test::And(members) } else { Test::Or(members) };
    if rng.chance(15) {
        Test::Not(Box::new(joined))
    } else {
        joined
    }
}

/// A test that is usually a name.
pub fn short_test(rng: &mut Rng, scope: &Scope) -> Test {
    let leaves = if rng.chance(75) { 1 } else { rng.between(2, 3) };
    test(rng, scope, leaves)
}

pub fn postfix(rng: &mut Rng) -> Postfix {
    *rng.pick(&[Postfix::Star, Postfix::Plus, Postfix::Optional])
}

pub fn expr(rng: &mut Rng, scope: &Scope, leaves: usize) -> Expr {
    let plain = if leaves <= 1 {
        leaf(rng, scope)
    } else {
        let parts = rng.between(2, leaves.min(4));
        let mut members = Vec::new();
        let mut rest = leaves;
        for part in 0..parts {
            let after = parts - part - 1;
            let own = if after == 0 { rest } else { rng.between(1, rest - after) };
            rest -= own;
            members.push(expr(rng, scope, own));
        }
        if rng.chance(60) { Expr::Sequence(members) } else { Expr::Union(members) }
    };
    if rng.chance(if leaves <= 1 { 15 } else { 30 }) {
        let count = if rng.chance(90) { 1 } else { rng.between(2, 4) };
        Expr::Postfixed(Box::new(plain), (0..count).map(|_| postfix(rng)).collect())
    } else {
        plain
    }
}

fn leaf(rng: &mut Rng, scope: &Scope) -> Expr {
    if !scope.lets.is_empty() && rng.chance(15) {
        return Expr::Name(rng.pick(&scope.lets).clone());
    }
    if scope.relations.is_empty() || rng.chance(if scope.tests.is_empty() { 4 } else { 18 }) {
        return Expr::Test(short_test(rng, scope));
    }
    Expr::Name(rng.pick(&scope.relations).clone())
}

/// An expression with at least the words of this one.
pub fn weaker(rng: &mut Rng, scope: &Scope, of: &Expr) -> Expr {
    if rng.chance(35) {
        return match rng.below(5) {
            0 => Expr::Postfixed(Box::new(of.clone()), vec![Postfix::Plus]),
            1 => Expr::Postfixed(Box::new(of.clone()), vec![Postfix::Star]),
            2 => Expr::Postfixed(Box::new(of.clone()), vec![Postfix::Optional]),
            3 => Expr::Union(vec![of.clone(), leaf(rng, scope)]),
            _ => Expr::Union(vec![leaf(rng, scope), of.clone()]),
        };
    }
    match of {
        Expr::Name(_) => of.clone(),
        Expr::Test(inside) => {
            if rng.chance(50) {
                Expr::Test(Test::Or(vec![inside.clone(), short_test(rng, scope)]))
            } else {
                Expr::Test(Test::True)
            }
        }
        Expr::Union(members) => Expr::Union(one_changed(rng, scope, members)),
        Expr::Sequence(members) => Expr::Sequence(one_changed(rng, scope, members)),
        Expr::Postfixed(inside, postfixes) => {
            Expr::Postfixed(Box::new(weaker(rng, scope, inside)), postfixes.clone())
        }
    }
}

fn one_changed(rng: &mut Rng, scope: &Scope, members: &[Expr]) -> Vec<Expr> {
    let mut changed = members.to_vec();
    let index = rng.below(changed.len());
    changed[index] = weaker(rng, scope, &members[index]);
    changed
}

/// The same ring begun elsewhere, or written twice.
pub fn turned(rng: &mut Rng, of: &Expr) -> Expr {
    match of {
        Expr::Sequence(members) => {
            let mut turned = members.clone();
            turned.rotate_left(rng.below(members.len()));
            if rng.chance(20) {
                let once = turned.clone();
                turned.extend(once);
            }
            Expr::Sequence(turned)
        }
        Expr::Union(members) => Expr::Union(members.iter().map(|member| turned(rng, member)).collect()),
        other => {
            if rng.chance(30) {
                Expr::Sequence(vec![other.clone(), other.clone()])
            } else {
                other.clone()
            }
        }
    }
}

/// A part of an expression.
pub fn part(rng: &mut Rng, of: &Expr) -> Expr {
    match of {
        Expr::Union(members) | Expr::Sequence(members) if rng.chance(60) => {
            let index = rng.below(members.len());
            part(rng, &members[index])
        }
        Expr::Postfixed(inside, _) if rng.chance(60) => part(rng, inside),
        other => other.clone(),
    }
}
