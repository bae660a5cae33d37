//! The search: levels of standings, each fresh standing once, in the order
//! of the least shortest prefix that has it.

use std::collections::HashSet;

use crate::path::PathStanding;
use crate::refusal::{refusal, Refusal};
use crate::ring::RingStanding;
use crate::sides::Problem;
use crate::standing::Standing;

pub const MOST_STANDINGS: usize = 4096;

#[derive(Clone, Debug, PartialEq, Eq)]
pub enum Verdict<S> {
    /// All distinct standings, in the order of a sheet.
    Proved(Vec<S>),
    /// The least shortest refuting word: atom, relation, atom, ..., atom.
    Refuted(Vec<usize>),
}

/// The verdict of either kind of claim.
#[derive(Clone, Debug, PartialEq, Eq)]
pub enum Answer {
    Path(Verdict<PathStanding>),
    Ring(Verdict<RingStanding>),
}

pub fn answer(problem: &Problem, allowance: usize) -> Result<Answer, Refusal> {
    if !(1..=MOST_STANDINGS).contains(&allowance) {
        return Err(refusal(9, 0));
    }
    if problem.ring {
        search(problem, allowance).map(Answer::Ring)
    } else {
        search(problem, allowance).map(Answer::Path)
    }
}

/// A standing with the last step of the least prefix that has it.
struct Record<S> {
    standing: S,
    /// The record of the prefix without its last step; none at level 1.
    parent: Option<usize>,
    atom: usize,
    relation: usize,
}

/// More standings than the allowance.
struct Spent;

struct Search<'a, S> {
    problem: &'a Problem,
    allowance: usize,
    seen: HashSet<S>,
    records: Vec<Record<S>>,
}

fn search<S: Standing>(problem: &Problem, allowance: usize) -> Result<Verdict<S>, Refusal> {
    if let Some(atom) = (0..problem.atoms()).find(|&atom| problem.single_atom_refutes(atom)) {
        return Ok(Verdict::Refuted(vec![atom]));
    }
    let mut search = Search { problem, allowance, seen: HashSet::new(), records: Vec::new() };
    let mut level = 0..0;
    loop {
        let next = search.next_level(level).map_err(|Spent| refusal(10, 0))?;
        if let Some(word) = search.refuting_word(next.clone()) {
            return Ok(Verdict::Refuted(word));
        }
        if next.is_empty() {
            return Ok(Verdict::Proved(search.records.into_iter().map(|record| record.standing).collect()));
        }
        level = next;
    }
}

impl<S: Standing> Search<'_, S> {
    /// The fresh standings one step after those of `level`; the first level
    /// when there is no record yet.
    fn next_level(&mut self, level: std::ops::Range<usize>) -> Result<std::ops::Range<usize>, Spent> {
        let problem = self.problem;
        let start = self.records.len();
        let parents: Vec<Option<usize>> =
            if start == 0 { vec![None] } else { level.map(Some).collect() };
        for parent in parents {
            for atom in problem.live_atoms() {
                for relation in 0..problem.relations {
                    let found = match parent {
                        None => S::first(problem, atom, relation),
                        Some(index) => self.records[index].standing.after(problem, atom, relation),
                    };
                    if let Some(standing) = found {
                        self.keep(standing, parent, atom, relation)?;
                    }
                }
            }
        }
        Ok(start..self.records.len())
    }

    fn keep(&mut self, standing: S, parent: Option<usize>, atom: usize, relation: usize) -> Result<(), Spent> {
        if self.seen.contains(&standing) {
            return Ok(());
        }
        if self.records.len() == self.allowance {
            return Err(Spent);
        }
        self.seen.insert(standing.clone());
        self.records.push(Record { standing, parent, atom, relation });
        Ok(())
    }

    fn refuting_word(&self, level: std::ops::Range<usize>) -> Option<Vec<usize>> {
        for index in level {
            let standing = &self.records[index].standing;
            if let Some(atom) = self.problem.live_atoms().find(|&atom| standing.refutes(self.problem, atom)) {
                return Some(self.word(index, atom));
            }
        }
        None
    }

    fn word(&self, index: usize, end: usize) -> Vec<usize> {
        let mut backwards = vec![end];
        let mut next = Some(index);
        while let Some(index) = next {
            let record = &self.records[index];
            backwards.push(record.relation);
            backwards.push(record.atom);
            next = record.parent;
        }
        backwards.reverse();
        backwards
    }
}
