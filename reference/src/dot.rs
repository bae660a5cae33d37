//! A drawn graph as text for the program `dot`, with the query's own names:
//! the steps of the word solid, the edges that come from closing dashed.

use crate::graph::{Graph, MOST_EVENTS};
use crate::reading::{Named, Query};

pub fn dot_text(query: &Query, word: &[usize], graph: &Graph) -> String {
    let mut text = String::from("digraph counterexample {\n  rankdir=LR;\n  node [shape=box];\n");
    for (event, atom) in graph.events.iter().enumerate() {
        let tests = (0..query.tests).filter(|test| atom >> test & 1 == 1).map(|test| format!(" {}", test_name(query, test)));
        text += &format!("  {event} [label=\"{event}{}\"];\n", tests.collect::<String>());
    }
    for (relation, rows) in graph.edges.iter().enumerate() {
        for (from, row) in rows.iter().enumerate() {
            for to in (0..MOST_EVENTS).filter(|to| row >> to & 1 == 1) {
                let style = if steps(word, graph.events.len()).contains(&(relation, from, to)) { "" } else { ", style=dashed" };
                text += &format!("  {from} -> {to} [label=\"{}\"{style}];\n", relation_name(query, relation));
            }
        }
    }
    text + "}\n"
}

/// The steps of a word: relation, from, to, around where the events are a ring.
fn steps(word: &[usize], count: usize) -> Vec<(usize, usize, usize)> {
    (0..word.len() / 2).map(|step| (word[2 * step + 1], step, (step + 1) % count)).collect()
}

fn test_name(query: &Query, number: usize) -> &str {
    named(query, |name| matches!(name, Named::Test(found) if *found == number))
}

fn relation_name(query: &Query, number: usize) -> &str {
    named(query, |name| matches!(name, Named::Relation(found) if *found == number))
}

fn named(query: &Query, wanted: impl Fn(&Named) -> bool) -> &str {
    query.names.iter().find(|(_, name)| wanted(name)).map_or("", |(name, _)| name)
}
