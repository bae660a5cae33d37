//! Standings of prefixes and the search, both as defined: every prefix of
//! every level is made, and nothing is dropped for being known already.

use std::collections::BTreeSet;

use super::{live_atoms, matches, refutes, Places, Run, Text};
use fence_reference::reading::Query;
use fence_reference::tree::Claim;

/// A standing as the bytes it has in a sheet.
pub type Bytes = Vec<u8>;

#[derive(Debug, PartialEq, Eq)]
pub enum Found {
    Proved(Vec<Bytes>),
    Refuted(Vec<usize>),
    Spent,
    /// Too many prefixes to make them all.
    TooLong,
}

fn left_reached(query: &Query, prefix: &Text) -> Places {
    let (Claim::Include(left, _) | Claim::Empty(left) | Claim::Irreflexive(left)) = &query.claim;
    let mut run = Run::new(query, prefix, None);
    run.through(left, &Places::from([0]));
    run.stopped
}

/// Reading the right side from `from`: where it may end, and the occurrences
/// that read the last relation.
pub fn right_side(query: &Query, text: &Text, from: usize) -> (Places, Places) {
    let starts = if from == 0 { Places::from([0]) } else { Places::new() };
    let mut run = Run::new(query, text, (from > 0).then_some(from));
    let mut ends = Places::new();
    if query.is_ring() {
        for expr in query.assumed_irreflexive() {
            ends.extend(run.through(expr, &starts));
        }
    } else if let Claim::Include(_, right) = &query.claim {
        ends.extend(run.through(right, &starts));
    }
    let before = run.any_star(&starts);
    let mut middle = Places::new();
    for expr in query.assumed_empty() {
        middle.extend(run.through(expr, &before));
    }
    if !query.is_ring() {
        let zero = |place: &&usize| {
            text.atoms.get(**place).is_some_and(|&atom| {
                query.assumed_irreflexive().iter().any(|expr| matches(query, expr, &Text::single(atom)))
            })
        };
        middle.extend(before.iter().filter(zero));
    }
    ends.extend(run.any_star(&middle));
    (ends, run.stopped)
}

fn set_bytes(set: &Places) -> [u8; 8] {
    set.iter().map(|number| 1u64 << (number - 1)).sum::<u64>().to_be_bytes()
}

fn row_bytes(row: impl IntoIterator<Item = usize>) -> [u8; 4] {
    row.into_iter().map(|number| 1u32 << number).sum::<u32>().to_be_bytes()
}

/// The standing of a prefix, if it has one; `right` is the number of right occurrences.
pub fn standing(query: &Query, prefix: &Text, right: usize) -> Option<Bytes> {
    let left = left_reached(query, prefix);
    if left.is_empty() {
        return None;
    }
    let mut bytes = Bytes::new();
    if !query.is_ring() {
        bytes.extend(set_bytes(&left));
        bytes.extend(set_bytes(&right_side(query, prefix, 0).1));
        return Some(bytes);
    }
    bytes.push(prefix.atoms[0] as u8);
    let zero = prefix.atoms.iter().any(|&atom| right_side(query, &Text::single(atom), 0).0.contains(&0));
    bytes.push(u8::from(zero));
    bytes.extend(set_bytes(&left));
    for from in 0..32 {
        let row = if from <= right { right_side(query, prefix, from).1 } else { Places::new() };
        bytes.extend(row_bytes(row));
    }
    let mut pairs = BTreeSet::new();
    for inside in 1..prefix.length() {
        let (before, after) = (prefix.part(0, inside), prefix.part(inside, prefix.length()));
        for q in right_side(query, &after, 0).1 {
            for p in 0..=right {
                if right_side(query, &before, p).0.contains(&inside) {
                    pairs.insert((q, p));
                }
            }
        }
    }
    for q in 0..32 {
        bytes.extend(row_bytes(pairs.iter().filter(|pair| pair.0 == q).map(|pair| pair.1)));
    }
    Some(bytes)
}

pub fn search(query: &Query, allowance: usize, right: usize, most_prefixes: usize) -> Found {
    let live = live_atoms(query);
    let mut seen = BTreeSet::new();
    let mut order = Vec::new();
    let mut level = vec![Text { atoms: Vec::new(), relations: Vec::new() }];
    for length in 0.. {
        let mut fresh = 0;
        if length > 0 {
            let mut next = Vec::new();
            for prefix in &level {
                for &atom in &live {
                    for relation in 0..query.relations {
                        let mut longer = prefix.clone();
                        longer.atoms.push(atom);
                        longer.relations.push(relation);
                        if let Some(bytes) = standing(query, &longer, right) {
                            next.push(longer);
                            if seen.insert(bytes.clone()) {
                                order.push(bytes);
                                fresh += 1;
                            }
                        }
                        if next.len() > most_prefixes {
                            return Found::TooLong;
                        }
                    }
                }
            }
            level = next;
        }
        if seen.len() > allowance {
            return Found::Spent;
        }
        for prefix in &level {
            for &atom in &live {
                let mut word = prefix.clone();
                word.atoms.push(atom);
                if refutes(query, &word, right) {
                    return Found::Refuted(word.numbers());
                }
            }
        }
        if length > 0 && fresh == 0 {
            return Found::Proved(order);
        }
    }
    Found::TooLong
}
