//! Standings of path claims: the left occurrences P and the right
//! occurrences S that a prefix may have just read.

use crate::automaton::Occurrences;
use crate::sides::Problem;
use crate::standing::{big_endian, within_count, Standing};

#[derive(Clone, Debug, PartialEq, Eq, Hash)]
pub struct PathStanding {
    pub left: Occurrences,
    pub right: Occurrences,
}

impl Standing for PathStanding {
    const BYTES: usize = 16;

    fn first(problem: &Problem, atom: usize, relation: usize) -> Option<Self> {
        let left = problem.left.step(0, atom, relation);
        let right = problem.right.step(0, atom, relation);
        (left != 0).then_some(PathStanding { left, right })
    }

    fn after(&self, problem: &Problem, atom: usize, relation: usize) -> Option<Self> {
        let left = problem.left.step_all(self.left, atom, relation);
        if left == 0 {
            return None;
        }
        let right = problem.right.step_all(self.right, atom, relation);
        Some(PathStanding { left, right })
    }

    fn refutes(&self, problem: &Problem, atom: usize) -> bool {
        problem.is_live(atom)
            && self.left & problem.left.ending_at(atom) != 0
            && self.right & problem.right.ending_at(atom) == 0
    }

    fn write(&self, out: &mut Vec<u8>) {
        out.extend(self.left.to_be_bytes());
        out.extend(self.right.to_be_bytes());
    }

    fn read(problem: &Problem, bytes: &[u8]) -> Option<Self> {
        let left = big_endian(&bytes[..8]);
        let right = big_endian(&bytes[8..16]);
        let fits = within_count(left, problem.left.count) && within_count(right, problem.right.count);
        fits.then_some(PathStanding { left, right })
    }
}
