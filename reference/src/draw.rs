//! The drawn graph of a guarded word: its events in a line, or in a ring for
//! an irreflexive claim; closed relations are then closed.

use crate::graph::{closure, Graph, MOST_EVENTS};
use crate::reading::Query;
use crate::tree::Line;

/// The graph, or nothing where it has more than 64 events.
pub fn draw(query: &Query, word: &[usize]) -> Option<Graph> {
    let length = word.len() / 2;
    let count = if query.is_ring() { length.max(1) } else { length + 1 };
    if count > MOST_EVENTS {
        return None;
    }
    let events: Vec<usize> = word.iter().step_by(2).take(count).copied().collect();
    let mut edges = vec![[0; MOST_EVENTS]; query.relations];
    for step in 0..length {
        edges[word[2 * step + 1]][step] |= 1 << ((step + 1) % count);
    }
    for (_, line) in &query.lines {
        if let Line::Closed(name) = line {
            if let Some(relation) = query.relation(name) {
                edges[relation] = closure(&edges[relation]);
            }
        }
    }
    Some(Graph { events, edges })
}
