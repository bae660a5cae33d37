//! Checking a sheet: refusal 13 at the first wrong field, then refusal 14 if
//! the sheet does not pass.

use std::collections::HashSet;

use crate::fields::Fields;
use crate::path::PathStanding;
use crate::refusal::{refusal, Refusal};
use crate::ring::RingStanding;
use crate::search::MOST_STANDINGS;
use crate::sheet::{PROVED, REFUTED, STANDING_TAG, VERDICT_TAG, WORD_TAG};
use crate::sides::Problem;
use crate::standing::Standing;

#[derive(Clone, Debug, PartialEq, Eq)]
pub enum Passed {
    Proved,
    /// The word: atom, relation, atom, ..., atom.
    Refuted(Vec<usize>),
}

pub fn check_sheet(problem: &Problem, sheet: &[u8]) -> Result<Passed, Refusal> {
    let mut fields = Fields::new(sheet);
    match read_one(&mut fields, VERDICT_TAG)? {
        [REFUTED] => {
            let word = read_word(problem, &mut fields)?;
            let refutes = if problem.ring {
                word_refutes::<RingStanding>(problem, &word)
            } else {
                word_refutes::<PathStanding>(problem, &word)
            };
            passes(refutes).map(|()| Passed::Refuted(word))
        }
        [PROVED] => {
            let closed = if problem.ring {
                let listed = read_standings::<RingStanding>(problem, &mut fields)?;
                standings_prove(problem, &listed)
            } else {
                let listed = read_standings::<PathStanding>(problem, &mut fields)?;
                standings_prove(problem, &listed)
            };
            passes(closed).map(|()| Passed::Proved)
        }
        _ => Err(refusal(13, 1)),
    }
}

fn passes(passes: bool) -> Result<(), Refusal> {
    if passes {
        Ok(())
    } else {
        Err(refusal(14, 0))
    }
}

/// The contents of the next field, which must have this tag.
fn read_one<'a>(fields: &mut Fields<'a>, tag: u8) -> Result<&'a [u8], Refusal> {
    let wrong = refusal(13, fields.number);
    let field = fields.field().map_err(|_| wrong)?;
    if field.tag != tag {
        return Err(wrong);
    }
    fields.pass(field);
    Ok(field.contents)
}

fn read_word(problem: &Problem, fields: &mut Fields<'_>) -> Result<Vec<usize>, Refusal> {
    let wrong = refusal(13, fields.number);
    let word: Vec<usize> = read_one(fields, WORD_TAG)?.iter().map(|&byte| usize::from(byte)).collect();
    let in_range = word.iter().enumerate().all(|(at, &number)| {
        number < if at % 2 == 0 { problem.atoms() } else { problem.relations }
    });
    if word.len() % 2 == 0 || !in_range {
        return Err(wrong);
    }
    if !fields.is_done() {
        return Err(refusal(13, fields.number));
    }
    Ok(word)
}

fn read_standings<S: Standing>(problem: &Problem, fields: &mut Fields<'_>) -> Result<HashSet<S>, Refusal> {
    let mut listed = HashSet::new();
    while !fields.is_done() {
        let wrong = refusal(13, fields.number);
        let contents = read_one(fields, STANDING_TAG)?;
        if contents.len() != S::BYTES || listed.len() == MOST_STANDINGS {
            return Err(wrong);
        }
        let standing = S::read(problem, contents).ok_or(wrong)?;
        if !listed.insert(standing) {
            return Err(wrong);
        }
    }
    Ok(listed)
}

/// Is the word a refuting word, shortest or not?
fn word_refutes<S: Standing>(problem: &Problem, word: &[usize]) -> bool {
    if word.iter().step_by(2).any(|&atom| !problem.is_live(atom)) {
        return false;
    }
    let end = word[word.len() - 1];
    let mut standing: Option<S> = None;
    for step in word[..word.len() - 1].chunks(2) {
        let next = match &standing {
            None => S::first(problem, step[0], step[1]),
            Some(before) => before.after(problem, step[0], step[1]),
        };
        if next.is_none() {
            return false;
        }
        standing = next;
    }
    match standing {
        None => problem.single_atom_refutes(end),
        Some(last) => last.refutes(problem, end),
    }
}

/// Do these standings show that no word refutes?
fn standings_prove<S: Standing>(problem: &Problem, listed: &HashSet<S>) -> bool {
    if (0..problem.atoms()).any(|atom| problem.single_atom_refutes(atom)) {
        return false;
    }
    let lists = |standing: Option<S>| standing.is_none_or(|standing| listed.contains(&standing));
    for atom in problem.live_atoms() {
        for relation in 0..problem.relations {
            if !lists(S::first(problem, atom, relation)) {
                return false;
            }
        }
    }
    listed.iter().all(|standing| {
        problem.live_atoms().all(|atom| {
            !standing.refutes(problem, atom)
                && (0..problem.relations).all(|relation| lists(standing.after(problem, atom, relation)))
        })
    })
}
