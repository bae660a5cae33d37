//! Graphs for a query: random ones, most of them mended to meet its limits,
//! and graphs damaged in each way of refusal 12.

use super::rng::Rng;
use crate::graph::{closure, write_graph, Graph, EDGE_TAG, EVENT_TAG, MOST_EVENTS};
use crate::reading::Query;
use crate::sheet::write_field;
use crate::sides::{all_atoms, satisfying};
use crate::tree::Line;

pub fn graph(rng: &mut Rng, query: &Query, most_events: usize) -> Graph {
    let mend = rng.chance(70);
    let mut live = all_atoms(query.tests);
    for (_, line) in &query.lines {
        if let Line::Never(test) = line {
            live &= !satisfying(query, test);
        }
    }
    let atoms: Vec<usize> = (0..1usize << query.tests).filter(|atom| !mend || live >> atom & 1 == 1).collect();
    let count = if atoms.is_empty() { 0 } else { rng.below(most_events + 1) };
    let events: Vec<usize> = (0..count).map(|_| *rng.pick(&atoms)).collect();
    let dense = rng.between(3, 160 / (count + 1) + 5);
    let mut edges = vec![[0; MOST_EVENTS]; query.relations];
    for pairs in &mut edges {
        for row in pairs.iter_mut().take(count) {
            *row = (0..count).filter(|_| rng.chance(dense)).fold(0, |set, to| set | 1 << to);
        }
    }
    let mut made = Graph { events, edges };
    if mend {
        mended(query, &mut made);
    }
    made
}

/// Edges outside their limits dropped, closed relations closed.
fn mended(query: &Query, graph: &mut Graph) {
    for (_, line) in &query.lines {
        let Line::Within(name, from, to) = line else { continue };
        let Some(relation) = query.relation(name) else { continue };
        let (from, to) = (satisfying(query, from), satisfying(query, to));
        let holding = |atoms: u64| {
            graph.events.iter().enumerate().filter(|(_, atom)| atoms >> **atom & 1 == 1).fold(0u64, |set, (event, _)| set | 1 << event)
        };
        let (from, to) = (holding(from), holding(to));
        for (event, row) in graph.edges[relation].iter_mut().enumerate() {
            *row = if from >> event & 1 == 1 { *row & to } else { 0 };
        }
    }
    for (_, line) in &query.lines {
        let Line::Closed(name) = line else { continue };
        let Some(relation) = query.relation(name) else { continue };
        graph.edges[relation] = closure(&graph.edges[relation]);
    }
}

/// The fields of a graph in a random order of edges, then damaged once.
pub fn damaged(rng: &mut Rng, query: &Query, graph: &Graph) -> Vec<u8> {
    let bytes = write_graph(graph);
    let split = 4 * graph.events.len();
    let mut events: Vec<Vec<u8>> = bytes[..split].chunks(4).map(<[u8]>::to_vec).collect();
    let mut edges: Vec<Vec<u8>> = bytes[split..].chunks(6).map(<[u8]>::to_vec).collect();
    let count = graph.events.len();
    let field = |tag: u8, contents: &[u8]| {
        let mut bytes = Vec::new();
        write_field(&mut bytes, tag, contents);
        bytes
    };
    let some_edge = rng.below(edges.len() + 1);
    match rng.below(14) {
        0 => {
            let mut cut = bytes.clone();
            cut.truncate(rng.below(bytes.len().max(1)));
            return cut;
        }
        1 => edges.insert(some_edge, field(*rng.pick(&[0, 3, 4, 255]), &[0, 0, 0])),
        2 => edges.push(field(EVENT_TAG, &[0])),
        3 => events.push(field(EVENT_TAG, &[0, 0])),
        4 => events.push(field(EVENT_TAG, &[])),
        5 => edges.insert(some_edge, field(EDGE_TAG, &[0, 0])),
        6 => edges.insert(some_edge, field(EDGE_TAG, &[0, 0, 0, 0])),
        7 => {
            let at = rng.below(count + 1);
            events.insert(at, field(EVENT_TAG, &[rng.between(1 << query.tests, 255) as u8]));
        }
        8 => edges.insert(some_edge, field(EDGE_TAG, &[rng.between(query.relations, 255) as u8, 0, 0])),
        9 => edges.insert(some_edge, field(EDGE_TAG, &[0, rng.between(count, 255) as u8, 0])),
        10 => edges.insert(some_edge, field(EDGE_TAG, &[0, 0, rng.between(count, 255) as u8])),
        11 => {
            while events.len() < MOST_EVENTS + 1 {
                events.push(field(EVENT_TAG, &[rng.below(1 << query.tests) as u8]));
            }
        }
        12 if !edges.is_empty() => {
            let again = rng.pick(&edges).clone();
            edges.insert(some_edge, again);
        }
        12 => edges.push(field(EDGE_TAG, &[0, 0, 0])),
        _ => {
            let mut changed = bytes.clone();
            if changed.is_empty() {
                return vec![EDGE_TAG, 0, 3, 0, 0, 0];
            }
            let at = rng.below(changed.len());
            changed[at] = rng.byte() % 8;
            return changed;
        }
    }
    events.concat().into_iter().chain(edges.concat()).collect()
}
