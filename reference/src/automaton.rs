//! The local automaton of a side. Its states are the numbers of its relation
//! occurrences and 0 for nothing read; between two of them stands the set of
//! atoms at which the second may follow the first.

use crate::sides::{Atoms, Letter, Side};
use crate::tree::Postfix;

/// A set of occurrences: bit k-1 for occurrence k.
pub type Occurrences = u64;

/// The occurrences of a set, lowest number first.
pub fn members(mut set: Occurrences) -> impl Iterator<Item = usize> {
    std::iter::from_fn(move || {
        if set == 0 {
            return None;
        }
        let lowest = set.trailing_zeros() as usize;
        set &= set - 1;
        Some(lowest + 1)
    })
}

pub struct Automaton {
    /// The number of occurrences.
    pub count: usize,
    /// The words of length 0.
    pub empty: Atoms,
    /// For each occurrence the atoms at which a word may end after it.
    pub last: Vec<Atoms>,
    relations: usize,
    /// Occurrences read next, by atom and relation, then by occurrence before.
    steps: Vec<Vec<Occurrences>>,
    /// For each atom the occurrences after which a word may end there.
    ending: Vec<Occurrences>,
}

impl Automaton {
    pub fn new(side: &Side, relations: usize) -> Automaton {
        let mut builder = Builder { letters: vec![None], follow: vec![vec![0]] };
        let whole = builder.fragment(side);
        for &(occurrence, atoms) in &whole.first {
            builder.follow[0][occurrence] |= atoms;
        }
        let count = builder.letters.len() - 1;
        let mut last = vec![0; count + 1];
        for &(occurrence, atoms) in &whole.last {
            last[occurrence] |= atoms;
        }
        let mut automaton = Automaton {
            count,
            empty: whole.empty,
            last,
            relations,
            steps: vec![vec![0; count + 1]; 64 * relations],
            ending: vec![0; 64],
        };
        automaton.fill(&builder);
        automaton
    }

    fn fill(&mut self, builder: &Builder) {
        for atom in 0..64 {
            for next in 1..=self.count {
                let bit = 1u64 << (next - 1);
                if self.last[next] >> atom & 1 == 1 {
                    self.ending[atom] |= bit;
                }
                for before in 0..=self.count {
                    if builder.follow[before][next] >> atom & 1 == 0 {
                        continue;
                    }
                    for relation in 0..self.relations {
                        if builder.letters[next].is_some_and(|letter| letter.reads(relation)) {
                            self.steps[atom * self.relations + relation][before] |= bit;
                        }
                    }
                }
            }
        }
    }

    /// The occurrences that may read `relation` at `atom` right after `before`.
    pub fn step(&self, before: usize, atom: usize, relation: usize) -> Occurrences {
        self.steps[atom * self.relations + relation][before]
    }

    /// The same after any one of a set.
    pub fn step_all(&self, before: Occurrences, atom: usize, relation: usize) -> Occurrences {
        let table = &self.steps[atom * self.relations + relation];
        members(before).fold(0, |set, occurrence| set | table[occurrence])
    }

    /// The occurrences after which a word may end at `atom`.
    pub fn ending_at(&self, atom: usize) -> Occurrences {
        self.ending[atom]
    }
}

/// A part of a side: its length-0 words, and its first and last occurrences
/// with the atoms before the first and after the last.
struct Fragment {
    empty: Atoms,
    first: Vec<(usize, Atoms)>,
    last: Vec<(usize, Atoms)>,
}

struct Builder {
    letters: Vec<Option<Letter>>,
    follow: Vec<Vec<Atoms>>,
}

impl Builder {
    fn fragment(&mut self, side: &Side) -> Fragment {
        match side {
            Side::Step(letter) => {
                let number = self.occurrence(*letter);
                Fragment { empty: 0, first: vec![(number, Atoms::MAX)], last: vec![(number, Atoms::MAX)] }
            }
            Side::Test(atoms) => Fragment { empty: *atoms, first: Vec::new(), last: Vec::new() },
            Side::Union(members) => {
                let mut whole = Fragment { empty: 0, first: Vec::new(), last: Vec::new() };
                for member in members {
                    let mut part = self.fragment(member);
                    whole.empty |= part.empty;
                    whole.first.append(&mut part.first);
                    whole.last.append(&mut part.last);
                }
                whole
            }
            Side::Sequence(members) => {
                let mut whole = Fragment { empty: Atoms::MAX, first: Vec::new(), last: Vec::new() };
                for member in members {
                    let part = self.fragment(member);
                    whole = self.sequence(whole, part);
                }
                whole
            }
            Side::Postfixed(inside, postfixes) => {
                let mut whole = self.fragment(inside);
                for postfix in postfixes {
                    if *postfix != Postfix::Optional {
                        self.join(&whole.last, &whole.first);
                    }
                    if *postfix != Postfix::Plus {
                        whole.empty = Atoms::MAX;
                    }
                }
                whole
            }
        }
    }

    fn occurrence(&mut self, letter: Letter) -> usize {
        self.letters.push(Some(letter));
        for row in &mut self.follow {
            row.push(0);
        }
        self.follow.push(vec![0; self.letters.len()]);
        self.letters.len() - 1
    }

    fn sequence(&mut self, one: Fragment, two: Fragment) -> Fragment {
        self.join(&one.last, &two.first);
        let mut first = one.first;
        first.extend(two.first.iter().map(|&(k, atoms)| (k, atoms & one.empty)));
        let mut last = two.last;
        last.extend(one.last.iter().map(|&(k, atoms)| (k, atoms & two.empty)));
        Fragment { empty: one.empty & two.empty, first, last }
    }

    /// What may end there may be followed by what may begin there.
    fn join(&mut self, last: &[(usize, Atoms)], first: &[(usize, Atoms)]) {
        for &(before, ends) in last {
            for &(next, begins) in first {
                self.follow[before][next] |= ends & begins;
            }
        }
    }
}
