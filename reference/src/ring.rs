//! Standings of ring claims: the first atom, the left occurrences P, the
//! table M of right occurrences reached by reading the whole prefix from
//! each number, the table N of cuts at an inside atom, and the flag Z.

use crate::automaton::{members, Occurrences};
use crate::sides::Problem;
use crate::standing::{big_endian, within_count, Standing};

/// A set of numbers from 0 to 31: bit k for number k.
pub type Row = u32;

pub const ROWS: usize = 32;

#[derive(Clone, Debug, PartialEq, Eq, Hash)]
pub struct RingStanding {
    pub first_atom: u8,
    /// An atom before one of the relations is a right word.
    pub zero: bool,
    pub left: Occurrences,
    /// Row p: the right occurrences reached from p by the prefix.
    pub turn: [Row; ROWS],
    /// Row q, bit p: at some inside atom q is reached from 0 by the part after
    /// it, and from p the part before it reaches an occurrence that may end there.
    pub cut: [Row; ROWS],
}

/// A set of at most 31 occurrences as a row.
fn row(set: Occurrences) -> Row {
    (set << 1) as Row
}

/// The occurrences of a row; 0 is none.
fn occurrences(row: Row) -> Occurrences {
    u64::from(row >> 1)
}

impl RingStanding {
    /// Is the ring that closes after this prefix covered?
    fn covered(&self, problem: &Problem) -> bool {
        if self.zero {
            return true;
        }
        let ending = row(problem.right.ending_at(usize::from(self.first_atom)));
        if self.turns_from(self.turn[0]) & ending != 0 {
            return true;
        }
        (1..ROWS).any(|q| self.cut[q] != 0 && self.turns_from(1 << q) & self.cut[q] != 0)
    }

    /// What any number of further turns reaches, none included.
    fn turns_from(&self, start: Row) -> Row {
        let mut reached = start;
        loop {
            let more = members(occurrences(reached)).fold(reached, |set, p| set | self.turn[p]);
            if more == reached {
                return reached;
            }
            reached = more;
        }
    }
}

impl Standing for RingStanding {
    const BYTES: usize = 266;

    fn first(problem: &Problem, atom: usize, relation: usize) -> Option<Self> {
        let left = problem.left.step(0, atom, relation);
        if left == 0 {
            return None;
        }
        let mut turn = [0; ROWS];
        for (p, reached) in turn.iter_mut().enumerate().take(problem.right.count + 1) {
            *reached = row(problem.right.step(p, atom, relation));
        }
        Some(RingStanding {
            first_atom: atom as u8,
            zero: problem.right.empty >> atom & 1 == 1,
            left,
            turn,
            cut: [0; ROWS],
        })
    }

    fn after(&self, problem: &Problem, atom: usize, relation: usize) -> Option<Self> {
        let left = problem.left.step_all(self.left, atom, relation);
        if left == 0 {
            return None;
        }
        let mut turn = [0; ROWS];
        for (reached, before) in turn.iter_mut().zip(self.turn) {
            *reached = row(problem.right.step_all(occurrences(before), atom, relation));
        }
        let mut cut = [0; ROWS];
        for (before, &ends) in self.cut.iter().enumerate().skip(1) {
            if ends != 0 && before <= problem.right.count {
                for q in members(problem.right.step(before, atom, relation)) {
                    cut[q] |= ends;
                }
            }
        }
        // This atom is now inside: the part after it is one step from 0.
        let ending = row(problem.right.ending_at(atom));
        let ends_here = (0..ROWS).filter(|&p| self.turn[p] & ending != 0).fold(0, |set, p| set | 1 << p);
        for q in members(problem.right.step(0, atom, relation)) {
            cut[q] |= ends_here;
        }
        Some(RingStanding {
            first_atom: self.first_atom,
            zero: self.zero || problem.right.empty >> atom & 1 == 1,
            left,
            turn,
            cut,
        })
    }

    fn refutes(&self, problem: &Problem, atom: usize) -> bool {
        atom == usize::from(self.first_atom)
            && problem.is_live(atom)
            && self.left & problem.left.ending_at(atom) != 0
            && !self.covered(problem)
    }

    fn write(&self, out: &mut Vec<u8>) {
        out.push(self.first_atom);
        out.push(u8::from(self.zero));
        out.extend(self.left.to_be_bytes());
        for row in self.turn.iter().chain(&self.cut) {
            out.extend(row.to_be_bytes());
        }
    }

    fn read(problem: &Problem, bytes: &[u8]) -> Option<Self> {
        let (first_atom, flag) = (bytes[0], bytes[1]);
        let left = big_endian(&bytes[2..10]);
        let fits = usize::from(first_atom) < problem.atoms() && flag <= 1 && within_count(left, problem.left.count);
        if !fits {
            return None;
        }
        let mut rows = [0; 2 * ROWS];
        for (row, bytes) in rows.iter_mut().zip(bytes[10..].chunks(4)) {
            *row = big_endian(bytes) as Row;
        }
        let mut turn = [0; ROWS];
        turn.copy_from_slice(&rows[..ROWS]);
        let mut cut = [0; ROWS];
        cut.copy_from_slice(&rows[ROWS..]);
        // Bits 0 to R are numbers of the right side; row R + 1 and later are none.
        let numbers = ((1u64 << (problem.right.count + 1)) - 1) as Row;
        for number in 0..ROWS {
            let there = number <= problem.right.count;
            let turn_fits = turn[number] & !(numbers & !1) == 0 && (there || turn[number] == 0);
            let cut_fits = cut[number] & !numbers == 0 && (there && number > 0 || cut[number] == 0);
            if !turn_fits || !cut_fits {
                return None;
            }
        }
        Some(RingStanding { first_atom, zero: flag == 1, left, turn, cut })
    }
}
