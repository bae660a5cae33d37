//! Sheets for a query: the written one, others that pass, and sheets damaged
//! in each way of refusals 13 and 14.

use super::rng::Rng;
use crate::calls::sheet_bytes;
use crate::reading::{read_query, Query};
use crate::sheet::{write_field, PROVED, REFUTED, STANDING_TAG, VERDICT_TAG, WORD_TAG};
use crate::sides::Problem;

/// The parts of a sheet, to be changed and put together again.
#[derive(Clone)]
struct Parts {
    verdict: u8,
    /// The word or the standings.
    contents: Vec<Vec<u8>>,
}

impl Parts {
    fn of(sheet: &[u8]) -> Parts {
        let mut contents = Vec::new();
        let mut rest = &sheet[4..];
        while rest.len() >= 3 {
            let length = usize::from(u16::from_be_bytes([rest[1], rest[2]]));
            contents.push(rest[3..3 + length].to_vec());
            rest = &rest[3 + length..];
        }
        Parts { verdict: sheet[3], contents }
    }

    fn bytes(&self) -> Vec<u8> {
        let mut sheet = Vec::new();
        write_field(&mut sheet, VERDICT_TAG, &[self.verdict]);
        for contents in &self.contents {
            let tag = if self.verdict == REFUTED { WORD_TAG } else { STANDING_TAG };
            write_field(&mut sheet, tag, contents);
        }
        sheet
    }
}

/// A sheet for the query, good or damaged; nothing where the query has no
/// answer with this allowance.
pub fn sheet(rng: &mut Rng, query: &[u8], allowance: usize) -> Option<Vec<u8>> {
    let good = sheet_bytes(query, allowance).ok()?;
    let read = read_query(query).ok()?;
    let problem = Problem::new(&read);
    let parts = Parts::of(&good);
    Some(match rng.below(20) {
        0..=1 => good,
        2..=5 => bytes_damaged(rng, good),
        6 => other_verdict(rng, &read, parts),
        _ if parts.verdict == REFUTED => word_changed(rng, &read, parts),
        7..=9 => standings_moved(rng, parts),
        10..=12 => standing_made_up(rng, &problem, parts),
        _ => standing_changed(rng, &problem, parts),
    })
}

fn bytes_damaged(rng: &mut Rng, good: Vec<u8>) -> Vec<u8> {
    let mut sheet = good;
    // Field starts, for tags and lengths.
    let mut starts = vec![0];
    let mut at = 0;
    while at + 3 <= sheet.len() {
        at += 3 + usize::from(u16::from_be_bytes([sheet[at + 1], sheet[at + 2]]));
        if at < sheet.len() {
            starts.push(at);
        }
    }
    let start = *rng.pick(&starts);
    match rng.below(8) {
        0 => sheet.truncate(rng.below(sheet.len())),
        1 => sheet[start] = *rng.pick(&[0, 1, 2, 3, 4, 255]),
        2 => sheet[start + 2] = sheet[start + 2].wrapping_add(*rng.pick(&[1, 255])),
        3 => sheet[start + 1] = sheet[start + 1].wrapping_add(1),
        4 => {
            let extra = rng.between(1, 4);
            sheet.extend((0..extra).map(|_| rng.below(4) as u8));
        }
        5 => sheet[3] = *rng.pick(&[0, 1, 2, 3, 255]),
        6 => {
            let at = rng.below(sheet.len());
            sheet[at] = rng.byte();
        }
        _ => {
            let at = rng.below(sheet.len());
            sheet[at] ^= 1 << rng.below(8);
        }
    }
    sheet
}

/// A word for a proved claim, standings for a refuted one.
fn other_verdict(rng: &mut Rng, query: &Query, parts: Parts) -> Vec<u8> {
    let mut other = Parts { verdict: PROVED, contents: Vec::new() };
    if parts.verdict == PROVED {
        other.verdict = REFUTED;
        other.contents.push(random_word(rng, query));
    } else if rng.chance(70) {
        let size = if query.is_ring() { 266 } else { 16 };
        other.contents.push(vec![0; size]);
    }
    other.bytes()
}

fn random_word(rng: &mut Rng, query: &Query) -> Vec<u8> {
    let length = if query.relations == 0 { 0 } else { rng.below(5) };
    let mut word: Vec<u8> = (0..=2 * length)
        .map(|at| rng.below(if at % 2 == 0 { 1 << query.tests } else { query.relations }) as u8)
        .collect();
    if rng.chance(60) {
        word[2 * length] = word[0];
    }
    word
}

fn word_changed(rng: &mut Rng, query: &Query, mut parts: Parts) -> Vec<u8> {
    let word = &mut parts.contents[0];
    match rng.below(9) {
        0 => *word = random_word(rng, query),
        // The same ring or path with a piece repeated: often longer and refuting.
        1..=2 => {
            let steps = word.len() / 2;
            let start = 2 * rng.below(steps + 1);
            let end = (start + 2 * rng.below(3)).min(word.len() - 1);
            let piece = word[start..end].to_vec();
            let count = rng.between(1, 3);
            for _ in 0..count {
                word.splice(start..start, piece.iter().copied());
            }
        }
        3 => {
            word.pop();
        }
        4 => word.push(0),
        5 => word[0] = 1 << query.tests,
        6 => {
            let at = 1.min(word.len() - 1);
            word[at] = query.relations.max(1 << query.tests) as u8;
        }
        7 => {
            let at = rng.below(word.len());
            word[at] = rng.below(if at % 2 == 0 { 1 << query.tests } else { query.relations }) as u8;
        }
        _ => {
            let again = word.clone();
            parts.contents.push(again);
        }
    }
    parts.bytes()
}

/// Standings left out, repeated, or in another order.
fn standings_moved(rng: &mut Rng, mut parts: Parts) -> Vec<u8> {
    if parts.contents.is_empty() {
        return parts.bytes();
    }
    let at = rng.below(parts.contents.len());
    match rng.below(4) {
        0 => {
            parts.contents.remove(at);
        }
        1 => {
            let again = parts.contents[at].clone();
            let place = rng.below(parts.contents.len() + 1);
            parts.contents.insert(place, again);
        }
        2 => parts.contents.reverse(),
        _ => {
            let other = rng.below(parts.contents.len());
            parts.contents.swap(at, other);
        }
    }
    parts.bytes()
}

/// One more standing, in range but usually of no prefix.
fn standing_made_up(rng: &mut Rng, problem: &Problem, mut parts: Parts) -> Vec<u8> {
    let mask = |count: usize| if count >= 64 { u64::MAX } else { (1u64 << count) - 1 };
    let sparse = |rng: &mut Rng, mask: u64| rng.number() & rng.number() & mask;
    let left = match rng.below(3) {
        0 => 0,
        1 => mask(problem.left.count) & (1 << rng.below(problem.left.count.max(1))),
        _ => sparse(rng, mask(problem.left.count)),
    };
    let mut standing = Vec::new();
    if problem.ring {
        standing.push(rng.below(problem.atoms()) as u8);
        standing.push(rng.below(2) as u8);
        standing.extend(left.to_be_bytes());
        let rows = if rng.chance(50) { 0 } else { mask(problem.right.count + 1) as u32 };
        for number in 0..64 {
            let row = sparse(rng, u64::from(rows)) as u32;
            let there = number % 32 <= problem.right.count && number != 32;
            let row = if number < 32 { row & !1 } else { row };
            standing.extend(if there { row } else { 0 }.to_be_bytes());
        }
    } else {
        standing.extend(left.to_be_bytes());
        let right = if rng.chance(30) { mask(problem.right.count) } else { sparse(rng, mask(problem.right.count)) };
        standing.extend(right.to_be_bytes());
    }
    let place = rng.below(parts.contents.len() + 1);
    parts.contents.insert(place, standing);
    parts.bytes()
}

/// One field of one standing changed, often to a value too large.
fn standing_changed(rng: &mut Rng, problem: &Problem, mut parts: Parts) -> Vec<u8> {
    if parts.contents.is_empty() {
        return standing_made_up(rng, problem, parts);
    }
    let at = rng.below(parts.contents.len());
    let standing = &mut parts.contents[at];
    let or_set = |bytes: &mut [u8], number: usize| bytes[bytes.len() - 1 - number / 8] |= 1 << (number % 8);
    if !problem.ring {
        let (side, count) = if rng.chance(50) { (0, problem.left.count) } else { (8, problem.right.count) };
        match rng.below(3) {
            0 if count < 64 => or_set(&mut standing[side..side + 8], count),
            1 if count < 64 => or_set(&mut standing[side..side + 8], rng.between(count, 63)),
            _ => standing[side + 7 - rng.below(count.div_ceil(8).clamp(1, 8))] ^= 1 << rng.below(8),
        }
        return parts.bytes();
    }
    let right = problem.right.count;
    match rng.below(9) {
        0 => standing[0] = rng.between(problem.atoms(), 255) as u8,
        1 => standing[0] = rng.below(problem.atoms()) as u8,
        2 => standing[1] = rng.between(2, 255) as u8,
        3 => standing[1] ^= 1,
        4 if problem.left.count < 64 => or_set(&mut standing[2..10], problem.left.count),
        // Bit 0 in a row of M, anything in row 0 of N.
        5 => {
            let row = 10 + 4 * rng.below(right + 1);
            standing[row + 3] |= 1;
        }
        6 => or_set(&mut standing[138..142], rng.below(right + 1)),
        // A bit or a row that the right side lacks.
        7 if right < 31 => {
            let row = 10 + 128 * rng.below(2) + 4 * rng.below(32);
            or_set(&mut standing[row..row + 4], rng.between(right + 1, 31));
        }
        _ => {
            let row = 10 + 128 * rng.below(2) + 4 * rng.below(32);
            or_set(&mut standing[row..row + 4], rng.below(right + 1));
        }
    }
    parts.bytes()
}

/// A query and a sheet of as many standings, all well formed and different.
pub fn many_standings(count: u64) -> (Vec<u8>, Vec<u8>) {
    let query = b"rel r\nclaim include r;r;r;r;r;r;r in r;r;r;r;r;r;r\n".to_vec();
    let mut sheet = Vec::new();
    write_field(&mut sheet, VERDICT_TAG, &[PROVED]);
    for number in 0..count {
        let mut standing = (number % 128).to_be_bytes().to_vec();
        standing.extend((number / 128).to_be_bytes());
        write_field(&mut sheet, STANDING_TAG, &standing);
    }
    (query, sheet)
}
