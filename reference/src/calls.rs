//! The calls on bytes, each with the line or the bytes it answers.

use crate::dot::dot_text;
use crate::draw::draw;
use crate::graph::{read_graph, write_graph};
use crate::judge::judge;
use crate::reading::{read_query, Query};
use crate::counting::sizes;
use crate::refusal::Refusal;
use crate::search::answer;
use crate::sheet::{answer_line, write_sheet};
use crate::sheet_check::{check_sheet, Passed};
use crate::sides::Problem;

fn line(answer: Result<String, Refusal>) -> String {
    answer.unwrap_or_else(|refused| refused.to_string())
}

/// The line of the query program.
pub fn query_line(query: &[u8], allowance: usize) -> String {
    line(read_query(query).and_then(|query| {
        let found = answer(&Problem::new(&query), allowance)?;
        Ok(answer_line(&found))
    }))
}

/// Whether the query is accepted, with the occurrences of its sides.
pub fn read_line(query: &[u8]) -> String {
    line(read_query(query).map(|query| {
        let sizes = sizes(&query);
        let kind = if query.is_ring() { "ring" } else { "path" };
        format!("accepted {} {} {}", kind, sizes.left.occurrences, sizes.right.occurrences)
    }))
}

pub fn sheet_bytes(query: &[u8], allowance: usize) -> Result<Vec<u8>, Refusal> {
    let query = read_query(query)?;
    let found = answer(&Problem::new(&query), allowance)?;
    Ok(write_sheet(&found))
}

/// The same into a buffer of `room` bytes; refusal 11 where it is short.
pub fn sheet_into(query: &[u8], allowance: usize, room: usize) -> Result<Vec<u8>, Refusal> {
    let sheet = sheet_bytes(query, allowance)?;
    if sheet.len() > room {
        return Err(Refusal { number: 11, place: 0 });
    }
    Ok(sheet)
}

fn check(query: &[u8], sheet: &[u8]) -> Result<(Query, Passed), Refusal> {
    let query = read_query(query)?;
    let passed = check_sheet(&Problem::new(&query), sheet)?;
    Ok((query, passed))
}

pub fn check_line(query: &[u8], sheet: &[u8]) -> String {
    line(check(query, sheet).map(|(_, passed)| match passed {
        Passed::Proved => "passes proved".to_string(),
        Passed::Refuted(_) => "passes refuted".to_string(),
    }))
}

pub fn judge_line(query: &[u8], graph: &[u8]) -> String {
    line(read_query(query).and_then(|query| {
        let graph = read_graph(&query, graph)?;
        Ok(judge(&query, &graph).to_string())
    }))
}

/// The drawn graph's bytes, or nothing where the sheet says proved or the
/// word has more than 64 events.
pub fn drawn_bytes(query: &[u8], sheet: &[u8]) -> Result<Option<Vec<u8>>, Refusal> {
    let (query, passed) = check(query, sheet)?;
    Ok(match passed {
        Passed::Proved => None,
        Passed::Refuted(word) => draw(&query, &word).map(|graph| write_graph(&graph)),
    })
}

/// The same as text for the program `dot`.
pub fn drawn_dot(query: &[u8], sheet: &[u8]) -> Result<Option<Vec<u8>>, Refusal> {
    let (query, passed) = check(query, sheet)?;
    Ok(match passed {
        Passed::Proved => None,
        Passed::Refuted(word) => draw(&query, &word).map(|graph| dot_text(&query, &word, &graph).into_bytes()),
    })
}
