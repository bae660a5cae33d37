//! The sheet check once more: fields cut by hand, steps and completion of
//! listed standings by readings that begin right after an occurrence.

use std::collections::{BTreeMap, BTreeSet};

use super::standings::right_side;
use super::{live_atoms, refutes, Places, Run, Text};
use fence_reference::counting::sizes;
use fence_reference::reading::Query;
use fence_reference::tree::Claim;

#[derive(Clone, PartialEq, Eq, PartialOrd, Ord, Debug)]
struct Listed {
    /// First atom and flag; 0 for path claims.
    first: usize,
    zero: bool,
    left: Places,
    /// Path: row 0 is S. Ring: the rows of M.
    reached: BTreeMap<usize, Places>,
    pairs: BTreeSet<(usize, usize)>,
}

fn set(bytes: &[u8]) -> Places {
    let count = 8 * bytes.len();
    (0..count).filter(|bit| bytes[(count - 1 - bit) / 8] >> (bit % 8) & 1 == 1).collect()
}

fn shifted(set: Places) -> Places {
    set.into_iter().map(|bit| bit + 1).collect()
}

struct Check<'a> {
    query: &'a Query,
    left: usize,
    right: usize,
}

/// The line of the check call.
pub fn checked(query: &Query, sheet: &[u8]) -> String {
    let sizes = sizes(query);
    let check = Check { query, left: sizes.left.occurrences as usize, right: sizes.right.occurrences as usize };
    match check.sheet(sheet) {
        Ok((proved, true)) => format!("passes {}", if proved { "proved" } else { "refuted" }),
        Ok((_, false)) => "refusal 14 line 0".to_string(),
        Err(field) => format!("refusal 13 line {field}"),
    }
}

impl Check<'_> {
    /// The verdict and whether the sheet passes, or the first wrong field.
    fn sheet(&self, sheet: &[u8]) -> Result<(bool, bool), usize> {
        if sheet.len() < 4 || sheet[..3] != [1, 0, 1] || ![1, 2].contains(&sheet[3]) {
            return Err(1);
        }
        let rest = &sheet[4..];
        if sheet[3] == 2 {
            return self.word(rest).map(|passes| (false, passes));
        }
        let mut listed = BTreeSet::new();
        let size = if self.query.is_ring() { 266 } else { 16 };
        for (index, field) in rest.chunks(size + 3).enumerate() {
            let good = index < 4096 && field.len() == size + 3 && field[..3] == [3, (size >> 8) as u8, size as u8];
            let standing = if good { self.standing(&field[3..]) } else { None };
            if !standing.is_some_and(|standing| listed.insert(standing)) {
                return Err(index + 2);
            }
        }
        Ok((true, self.proves(&listed)))
    }

    fn word(&self, rest: &[u8]) -> Result<bool, usize> {
        if rest.len() < 3 || rest[0] != 2 {
            return Err(2);
        }
        let length = 256 * rest[1] as usize + rest[2] as usize;
        if rest.len() < 3 + length || length % 2 == 0 {
            return Err(2);
        }
        let numbers: Vec<usize> = rest[3..3 + length].iter().map(|&byte| byte as usize).collect();
        let atoms: Vec<usize> = numbers.iter().copied().step_by(2).collect();
        let relations: Vec<usize> = numbers.iter().copied().skip(1).step_by(2).collect();
        if atoms.iter().any(|&atom| atom >= 1 << self.query.tests) || relations.iter().any(|&r| r >= self.query.relations) {
            return Err(2);
        }
        if rest.len() > 3 + length {
            return Err(3);
        }
        Ok(refutes(self.query, &Text { atoms, relations }, self.right))
    }

    fn standing(&self, bytes: &[u8]) -> Option<Listed> {
        let fits = |set: &Places, low: usize, high: usize| set.iter().all(|number| (low..=high).contains(number));
        let mut listed =
            Listed { first: 0, zero: false, left: Places::new(), reached: BTreeMap::new(), pairs: BTreeSet::new() };
        if !self.query.is_ring() {
            listed.left = shifted(set(&bytes[..8]));
            let right = shifted(set(&bytes[8..]));
            let good = fits(&listed.left, 1, self.left) && fits(&right, 1, self.right);
            listed.reached.insert(0, right);
            return good.then_some(listed);
        }
        listed.first = bytes[0] as usize;
        listed.zero = bytes[1] == 1;
        listed.left = shifted(set(&bytes[2..10]));
        let mut good = listed.first < 1 << self.query.tests && bytes[1] < 2 && fits(&listed.left, 1, self.left);
        for number in 0..32 {
            let reached = set(&bytes[10 + 4 * number..14 + 4 * number]);
            let ends = set(&bytes[138 + 4 * number..142 + 4 * number]);
            good &= fits(&reached, 1, self.right) && fits(&ends, 0, self.right);
            good &= number <= self.right || reached.is_empty() && ends.is_empty();
            good &= number > 0 || ends.is_empty();
            listed.reached.insert(number, reached);
            listed.pairs.extend(ends.into_iter().map(|p| (number, p)));
        }
        good.then_some(listed)
    }

    /// Left: where reading may end, and the occurrences just read, from `from`.
    fn left_side(&self, text: &Text, from: usize) -> (Places, Places) {
        let (Claim::Include(left, _) | Claim::Empty(left) | Claim::Irreflexive(left)) = &self.query.claim;
        let starts = if from == 0 { Places::from([0]) } else { Places::new() };
        let mut run = Run::new(self.query, text, (from > 0).then_some(from));
        let ends = run.through(left, &starts);
        (ends, run.stopped)
    }

    fn right_step(&self, from: &Places, step: &Text) -> Places {
        from.iter().flat_map(|&p| right_side(self.query, step, p).1).collect()
    }

    fn right_ends(&self, from: usize, atom: usize) -> bool {
        right_side(self.query, &Text::single(atom), from).0.contains(&0)
    }

    fn first(&self, step: &Text) -> Listed {
        let numbers = if self.query.is_ring() { 0..=self.right } else { 0..=0 };
        let mut reached: BTreeMap<usize, Places> =
            numbers.map(|p| (p, right_side(self.query, step, p).1)).collect();
        if self.query.is_ring() {
            for p in 0..32 {
                reached.entry(p).or_default();
            }
        }
        Listed {
            first: if self.query.is_ring() { step.atoms[0] } else { 0 },
            zero: self.query.is_ring() && self.right_ends(0, step.atoms[0]),
            left: self.left_side(step, 0).1,
            reached,
            pairs: BTreeSet::new(),
        }
    }

    fn after(&self, standing: &Listed, step: &Text) -> Listed {
        let atom = step.atoms[0];
        let left = standing.left.iter().flat_map(|&p| self.left_side(step, p).1).collect();
        let reached = standing.reached.iter().map(|(&p, set)| (p, self.right_step(set, step))).collect();
        let mut pairs = BTreeSet::new();
        if self.query.is_ring() {
            for &(q, p) in &standing.pairs {
                pairs.extend(self.right_step(&Places::from([q]), step).into_iter().map(|next| (next, p)));
            }
            for q in self.right_step(&Places::from([0]), step) {
                for (&p, set) in &standing.reached {
                    if set.iter().any(|&end| self.right_ends(end, atom)) {
                        pairs.insert((q, p));
                    }
                }
            }
        }
        let zero = self.query.is_ring() && (standing.zero || self.right_ends(0, atom));
        Listed { first: standing.first, zero, left, reached, pairs }
    }

    fn completes(&self, standing: &Listed, atom: usize) -> bool {
        let is_left = standing.left.iter().any(|&p| self.left_side(&Text::single(atom), p).0.contains(&0));
        if !self.query.is_ring() {
            return is_left && !standing.reached[&0].iter().any(|&p| self.right_ends(p, atom));
        }
        // Turns from each number, as many as can matter.
        let turns = |start: &Places| {
            let mut all = start.clone();
            for _ in 0..32 {
                let more: Places = all.iter().flat_map(|p| standing.reached[p].clone()).collect();
                all.extend(more);
            }
            all
        };
        let whole = turns(&standing.reached[&0]).iter().any(|&p| self.right_ends(p, atom));
        let inside = standing.pairs.iter().any(|&(q, p)| turns(&Places::from([q])).contains(&p));
        is_left && atom == standing.first && !standing.zero && !whole && !inside
    }

    fn proves(&self, listed: &BTreeSet<Listed>) -> bool {
        let live = live_atoms(self.query);
        if live.iter().any(|&atom| refutes(self.query, &Text::single(atom), self.right)) {
            return false;
        }
        let is_listed = |standing: Listed| standing.left.is_empty() || listed.contains(&standing);
        let relations = self.query.relations;
        let steps: Vec<Text> = live
            .iter()
            .flat_map(|&atom| (0..relations).map(move |relation| Text { atoms: vec![atom], relations: vec![relation] }))
            .collect();
        steps.iter().all(|step| is_listed(self.first(step)))
            && listed.iter().all(|standing| {
                steps.iter().all(|step| is_listed(self.after(standing, step)))
                    && !live.iter().any(|&atom| self.completes(standing, atom))
            })
    }
}
