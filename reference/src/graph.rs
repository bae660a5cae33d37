//! Execution graphs: events with an atom each, and for each relation its
//! listed edges. Refusal 12 at the first wrong field.

use crate::fields::Fields;
use crate::reading::Query;
use crate::refusal::{refusal, Refusal};
use crate::sheet::write_field;

pub const MOST_EVENTS: usize = 64;
pub const EVENT_TAG: u8 = 1;
pub const EDGE_TAG: u8 = 2;

/// A set of pairs of events: row `from` has bit `to`.
pub type Pairs = [u64; MOST_EVENTS];

#[derive(Clone, Debug, PartialEq, Eq)]
pub struct Graph {
    /// The atom of each event.
    pub events: Vec<usize>,
    /// The edges of each relation.
    pub edges: Vec<Pairs>,
}

pub fn read_graph(query: &Query, bytes: &[u8]) -> Result<Graph, Refusal> {
    let mut graph = Graph { events: Vec::new(), edges: vec![[0; MOST_EVENTS]; query.relations] };
    let mut fields = Fields::new(bytes);
    let mut edges_begun = false;
    while !fields.is_done() {
        let wrong = refusal(12, fields.number);
        let field = fields.field().map_err(|_| wrong)?;
        match (field.tag, field.contents) {
            (EVENT_TAG, &[atom]) => {
                let atom = usize::from(atom);
                if edges_begun || atom >= 1 << query.tests || graph.events.len() == MOST_EVENTS {
                    return Err(wrong);
                }
                graph.events.push(atom);
            }
            (EDGE_TAG, &[relation, from, to]) => {
                let (relation, from, to) = (usize::from(relation), usize::from(from), usize::from(to));
                let events = graph.events.len();
                if relation >= query.relations || from >= events || to >= events {
                    return Err(wrong);
                }
                if graph.edges[relation][from] >> to & 1 == 1 {
                    return Err(wrong);
                }
                graph.edges[relation][from] |= 1 << to;
                edges_begun = true;
            }
            _ => return Err(wrong),
        }
        fields.pass(field);
    }
    Ok(graph)
}

/// Events in order, then edges by relation, from, to.
pub fn write_graph(graph: &Graph) -> Vec<u8> {
    let mut bytes = Vec::new();
    for &atom in &graph.events {
        write_field(&mut bytes, EVENT_TAG, &[atom as u8]);
    }
    for (relation, pairs) in graph.edges.iter().enumerate() {
        for (from, row) in pairs.iter().enumerate() {
            for to in (0..MOST_EVENTS).filter(|to| row >> to & 1 == 1) {
                write_field(&mut bytes, EDGE_TAG, &[relation as u8, from as u8, to as u8]);
            }
        }
    }
    bytes
}

/// First the one, then the other.
pub fn composed(one: &Pairs, two: &Pairs) -> Pairs {
    let mut pairs = [0; MOST_EVENTS];
    for (row, &middles) in pairs.iter_mut().zip(one) {
        for (middle, ends) in two.iter().enumerate() {
            if middles >> middle & 1 == 1 {
                *row |= ends;
            }
        }
    }
    pairs
}

/// The transitive closure.
pub fn closure(pairs: &Pairs) -> Pairs {
    let mut closed = *pairs;
    for middle in 0..MOST_EVENTS {
        let ends = closed[middle];
        for row in &mut closed {
            if *row >> middle & 1 == 1 {
                *row |= ends;
            }
        }
    }
    closed
}
