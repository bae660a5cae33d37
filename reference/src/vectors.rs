//! Stored cases: the lines of each kind from a seed, and the answer to a line.

use crate::counting::sizes;
use crate::calls::{check_line, drawn_bytes, judge_line, query_line, read_line, sheet_bytes};
use crate::draw::draw;
use crate::escape::{escaped, hex, unescaped, unhex};
use crate::generate::damage::{edited, refused};
use crate::generate::every_way;
use crate::generate::graphs::{damaged, graph};
use crate::generate::judged;
use crate::generate::limits::{at_limits, wide_sides};
use crate::generate::queries::{any_shape, query, turning_query, MEDIUM, SMALL, TINY};
use crate::generate::rng::Rng;
use crate::generate::sheets::{many_standings, sheet};
use crate::graph::write_graph;
use crate::reading::read_query;
use crate::search::{answer, Answer, Verdict};
use crate::sheet::{answer_line, write_sheet};
use crate::sides::Problem;

pub const KINDS: [&str; 10] =
    ["read", "query", "sheet", "check", "judge", "draw", "small-query", "small-check", "small-judge", "small-draw"];

const MOST_RING_STANDINGS: usize = 6;
const MOST_SMALL_STANDINGS: usize = 12;

/// So many input lines of a kind, or nothing where the kind is unknown. Cases
/// chosen by hand stand before the random ones; of `edits` and `judge-edits` there
/// are no others.
pub fn inputs(kind: &str, seed: u64, count: usize) -> Option<Vec<String>> {
    let mut rng = Rng::new(seed);
    let rng = &mut rng;
    let mut lines = match kind {
        "read" => at_limits(rng).iter().map(|query| escaped(query)).collect(),
        "query" => {
            let mut lines = many_standings_asked();
            lines.extend(at_limits(rng).iter().map(|query| format!("200 {}", escaped(query))));
            lines
        }
        "sheet" => wide_sides().iter().map(|query| format!("200 {}", escaped(query))).collect(),
        "check" => {
            let many = [4096, 4097].map(many_standings);
            let chosen = every_way::sheets().into_iter().chain(every_way::highest_numbers());
            many.into_iter().chain(chosen).map(with_hex).collect()
        }
        "edits" => every_way::edited_sheets().into_iter().map(with_hex).collect(),
        "small-check" => every_way::sheets().into_iter().map(with_hex).collect(),
        "judge" => {
            let chosen = every_way::many_events().into_iter().chain(every_way::graphs()).chain(judged::graphs());
            chosen.map(with_hex).collect()
        }
        "judge-edits" => judged::edited().into_iter().map(with_hex).collect(),
        "small-judge" => every_way::graphs().into_iter().map(with_hex).collect(),
        _ => Vec::new(),
    };
    while lines.len() < count {
        let line = match kind {
            "read" => escaped(&any_query(rng)),
            "query" => query_case(rng),
            "sheet" => sheet_case(rng),
            "check" => with_hex(check_case(rng)),
            "judge" => with_hex(judge_case(rng)),
            "draw" => with_hex(draw_case(rng)),
            "small-query" => format!("200 {}", escaped(&small_query(rng, lines.len() % 2 == 1))),
            "small-check" => with_hex(small_check(rng)),
            "small-judge" => with_hex(small_judge(rng)),
            "small-draw" => with_hex(small_draw(rng)),
            _ => return None,
        };
        lines.push(line);
    }
    lines.truncate(count);
    Some(lines)
}

/// The output line for an input line; nothing where the line is no case.
pub fn output(kind: &str, line: &str) -> Option<String> {
    let kind = kind.strip_prefix("small-").unwrap_or(kind);
    if kind == "read" {
        return Some(read_line(&unescaped(line)?));
    }
    let (first, rest) = line.split_once(' ')?;
    let query = unescaped(rest)?;
    Some(match kind {
        "query" => query_line(&query, first.parse().ok()?),
        "sheet" => match sheet_bytes(&query, first.parse().ok()?) {
            Ok(sheet) => hex(&sheet),
            Err(refused) => refused.to_string(),
        },
        "check" => check_line(&query, &unhex(first)?),
        "edits" => edit_lines(check_line, &query, &unhex(first)?),
        "judge-edits" => edit_lines(judge_line, &query, &unhex(first)?),
        "searched" => searched_line(&query, first.parse().ok()?),
        "judge" => judge_line(&query, &unhex(first)?),
        "draw" => match drawn_bytes(&query, &unhex(first)?) {
            Ok(Some(graph)) => hex(&graph),
            Ok(None) => "none".to_string(),
            Err(refused) => refused.to_string(),
        },
        _ => return None,
    })
}

/// The allowance and the query of a case of `query`.
pub fn asked(line: &str) -> Option<(usize, Vec<u8>)> {
    let (allowance, query) = line.split_once(' ')?;
    Some((allowance.parse().ok()?, unescaped(query)?))
}

/// The line of the search, and behind an answer that of the check of its sheet.
fn searched_line(query: &[u8], allowance: usize) -> String {
    let line = query_line(query, allowance);
    match sheet_bytes(query, allowance) {
        Ok(sheet) => format!("{line}, {}", check_line(query, &sheet)),
        Err(_) => line,
    }
}

/// The answers of a call to a sheet or graph cut at every place, and for each
/// place of it those to every byte there; equal ones in a row are counted.
fn edit_lines(answer: fn(&[u8], &[u8]) -> String, query: &[u8], bytes: &[u8]) -> String {
    let mut lines = vec![runs((0..=bytes.len()).map(|end| answer(query, &bytes[..end])))];
    for place in 0..bytes.len() {
        let mut changed = bytes.to_vec();
        lines.push(runs((0..=255).map(|byte| {
            changed[place] = byte;
            answer(query, &changed)
        })));
    }
    lines.join("\n")
}

fn runs(answers: impl Iterator<Item = String>) -> String {
    let mut runs: Vec<(usize, String)> = Vec::new();
    for answer in answers {
        match runs.last_mut() {
            Some((count, last)) if *last == answer => *count += 1,
            _ => runs.push((1, answer)),
        }
    }
    runs.iter().map(|(count, answer)| format!("{count} {answer}")).collect::<Vec<_>>().join(", ")
}

fn with_hex((query, bytes): (Vec<u8>, Vec<u8>)) -> String {
    format!("{} {}", hex(&bytes), escaped(&query))
}

/// A query of any size, good, refused for a chosen reason, or edited.
fn any_query(rng: &mut Rng) -> Vec<u8> {
    match rng.below(10) {
        0..=3 => {
            let shape = any_shape(rng);
            query(rng, shape)
        }
        4..=6 => {
            let number = if rng.chance(3) { 1 } else { rng.between(2, 8) as u8 };
            refused(rng, number)
        }
        _ => {
            let good = query(rng, SMALL);
            edited(rng, &good)
        }
    }
}

/// Any query with one of the usual allowances, or with one around its count.
fn query_case(rng: &mut Rng) -> String {
    if rng.chance(12) {
        let (asked, found) = answered(rng, 200);
        let (Answer::Path(Verdict::Refuted(_)) | Answer::Ring(Verdict::Refuted(_))) = found else {
            let count = answer_line(&found).trim_start_matches("proved ").parse().unwrap_or(0usize);
            return format!("{} {}", (count + rng.below(3)).saturating_sub(1), escaped(&asked));
        };
    }
    let allowance = *rng.pick(&[0, 1, 1, 2, 2, 3, 3, 200, 200, 200, 200, 200, 4096, 4097]);
    let asked = match rng.below(20) {
        0..=1 => any_query(rng),
        2..=4 => turning_query(rng),
        _ => {
            let shape = any_shape(rng);
            query(rng, shape)
        }
    };
    format!("{allowance} {}", escaped(&asked))
}

/// Queries with hundreds of standings, at and around their counts.
fn many_standings_asked() -> Vec<String> {
    let tests = "test t0\ntest t1\ntest t2\ntest t3\ntest t4\ntest t5\nrel r\nrel s\n";
    let mut lines = Vec::new();
    for (claim, count) in [
        ("assume irreflexive (r|s|r|s|r|s|r|s)*\nclaim irreflexive (r|s)+\n", 256),
        ("assume irreflexive ([t0];r|s;[t1])+\nassume empty r;s;r\nclaim irreflexive r;s;r;s\n", 384),
        ("let x=[t0];r|[t1];s|[t2];r|[t3];s\nclaim include x;x;x;x in (x|r;s)*\n", 0),
        ("let x=[t0];r|[t1];s\nlet y=[t2];r|[t3];s|r;[t4]\nclaim include (x;y)+ in (x*;y*)*\n", 0),
    ] {
        for allowance in [200, count - 1, count, 4096] {
            if allowance > 0 {
                lines.push(format!("{allowance} {}", escaped(format!("{tests}{claim}").as_bytes())));
            }
        }
    }
    lines
}

/// A query with an answer of few standings.
fn answered(rng: &mut Rng, most: usize) -> (Vec<u8>, Answer) {
    loop {
        let shape = if rng.chance(40) { TINY } else if rng.chance(80) { SMALL } else { MEDIUM };
        let asked = if rng.chance(15) { turning_query(rng) } else { query(rng, shape) };
        let Ok(read) = read_query(&asked) else { continue };
        let Ok(found) = answer(&Problem::new(&read), 200) else { continue };
        let fits = match &found {
            Answer::Path(Verdict::Proved(standings)) => standings.len() <= most,
            Answer::Ring(Verdict::Proved(standings)) => standings.len() <= most.min(MOST_RING_STANDINGS),
            _ => true,
        };
        // Few of the answers without any standing are enough.
        let empty = matches!(&found, Answer::Path(Verdict::Proved(s)) if s.is_empty())
            || matches!(&found, Answer::Ring(Verdict::Proved(s)) if s.is_empty())
            || matches!(&found, Answer::Path(Verdict::Refuted(w)) | Answer::Ring(Verdict::Refuted(w)) if w.len() == 1);
        if fits && (!empty || rng.chance(15)) {
            return (asked, found);
        }
    }
}

fn sheet_case(rng: &mut Rng) -> String {
    if rng.chance(8) {
        let allowance = *rng.pick(&[0, 1, 200, 4097]);
        let number = rng.between(2, 8) as u8;
        return format!("{allowance} {}", escaped(&refused(rng, number)));
    }
    let (asked, _) = answered(rng, 40);
    let allowance = *rng.pick(&[0, 1, 2, 3, 200, 200, 200, 200, 200, 4096, 4097]);
    format!("{allowance} {}", escaped(&asked))
}

fn check_case(rng: &mut Rng) -> (Vec<u8>, Vec<u8>) {
    if rng.chance(3) {
        return (any_query(rng), vec![1, 0, 1, 1]);
    }
    loop {
        let (asked, _) = answered(rng, 40);
        if let Some(made) = sheet(rng, &asked, 200) {
            return (asked, made);
        }
    }
}

fn judge_case(rng: &mut Rng) -> (Vec<u8>, Vec<u8>) {
    loop {
        let shape = any_shape(rng);
        let asked = if rng.chance(3) { any_query(rng) } else { query(rng, shape) };
        let Ok(read) = read_query(&asked) else {
            if rng.chance(30) {
                return (asked, vec![1, 0, 1, 0]);
            }
            continue;
        };
        if read.relations == 0 && rng.chance(80) {
            continue;
        }
        let most = if rng.chance(95) { 6 } else { 24 };
        let made = graph(rng, &read, most);
        return match rng.below(10) {
            0..=1 => {
                let bytes = damaged(rng, &read, &made);
                (asked, bytes)
            }
            2..=3 => match answer(&Problem::new(&read), 200) {
                Ok(Answer::Path(Verdict::Refuted(word)) | Answer::Ring(Verdict::Refuted(word))) => {
                    let bytes = draw(&read, &word).map(|drawn| write_graph(&drawn)).unwrap_or_default();
                    (asked, bytes)
                }
                _ => (asked, write_graph(&made)),
            },
            _ => (asked, write_graph(&made)),
        };
    }
}

/// A long refuting word now and then, around the 64 events of a graph.
fn draw_case(rng: &mut Rng) -> (Vec<u8>, Vec<u8>) {
    if rng.chance(6) {
        let ring = rng.chance(50);
        let length = rng.between(61, 67);
        let claim = if ring { "irreflexive" } else { "empty" };
        let closed = *rng.pick(&["", "", "closed s\n"]);
        let asked = format!("rel r\nrel s\n{closed}claim {claim} (r|s)+\n").into_bytes();
        let mut sheet = vec![1, 0, 1, 2, 2, 0, 2 * length as u8 + 1];
        for _ in 0..length {
            sheet.extend([0, u8::from(rng.chance(20))]);
        }
        sheet.push(0);
        return (asked, sheet);
    }
    loop {
        let (asked, found) = answered(rng, 4);
        let refutes = matches!(found, Answer::Path(Verdict::Refuted(_)) | Answer::Ring(Verdict::Refuted(_)));
        if !refutes && rng.chance(90) {
            continue;
        }
        if rng.chance(60) {
            return (asked, write_sheet(&found));
        }
        if let Some(made) = sheet(rng, &asked, 200) {
            return (asked, made);
        }
    }
}

// Cases small enough for a slow evaluator of the definitions.

fn small_query(rng: &mut Rng, bad: bool) -> Vec<u8> {
    loop {
        let made = if !bad {
            answered(rng, MOST_SMALL_STANDINGS).0
        } else if rng.chance(75) {
            let number = if rng.chance(5) { 8 } else { rng.between(2, 7) as u8 };
            refused(rng, number)
        } else {
            let good = query(rng, TINY);
            edited(rng, &good)
        };
        let refused = read_query(&made).is_err();
        if refused == bad && is_small(&made) {
            return made;
        }
    }
}

/// Few bytes, and where the query can be read at most three tests and
/// relations and few leaves.
fn is_small(asked: &[u8]) -> bool {
    asked.len() <= 420
        && read_query(asked).map_or(true, |read| {
            let sizes = sizes(&read);
            let leaves = sizes.left.leaves.max(sizes.right.leaves.saturating_sub(3)).max(sizes.beside.leaves);
            read.tests <= 3 && read.relations <= 3 && leaves <= 10
        })
}

fn small_check(rng: &mut Rng) -> (Vec<u8>, Vec<u8>) {
    loop {
        let (asked, _) = answered(rng, 5);
        let made = sheet(rng, &asked, 200);
        if let (true, Some(made)) = (is_small(&asked), made) {
            return (asked, made);
        }
    }
}

fn small_judge(rng: &mut Rng) -> (Vec<u8>, Vec<u8>) {
    loop {
        let asked = query(rng, SMALL);
        let Ok(read) = read_query(&asked) else { continue };
        let made = graph(rng, &read, 5);
        if !is_small(&asked) || made.events.is_empty() && rng.chance(80) {
            continue;
        }
        let bytes = if rng.chance(30) { damaged(rng, &read, &made) } else { write_graph(&made) };
        if bytes.len() <= 250 {
            return (asked, bytes);
        }
    }
}

/// A short refuting word most of the time, as found or made otherwise.
fn small_draw(rng: &mut Rng) -> (Vec<u8>, Vec<u8>) {
    loop {
        let (asked, found) = answered(rng, 4);
        let refutes = match &found {
            Answer::Path(Verdict::Refuted(word)) | Answer::Ring(Verdict::Refuted(word)) => word.len() <= 13,
            _ => rng.chance(4),
        };
        if !refutes || !is_small(&asked) {
            continue;
        }
        if rng.chance(75) {
            return (asked, write_sheet(&found));
        }
        match sheet(rng, &asked, 200) {
            Some(made) if made.len() <= 60 => return (asked, made),
            _ => continue,
        }
    }
}
