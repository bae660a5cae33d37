//! The circle: what the search refutes is drawn and judged, and what it proves
//! holds in graphs made by arithmetic alone, so that another program can make
//! the same ones. (vectors/README.md, "The circle")

use crate::calls::{check_line, drawn_bytes, sheet_bytes};
use crate::graph::{closure, read_graph, Graph, MOST_EVENTS};
use crate::judge::{judge, Judgement, Outcome};
use crate::reading::{read_query, Query};
use crate::tree::Line;

/// Graphs for each proved query.
const GRAPHS: usize = 24;
/// Events of such a graph, at most.
const MOST_MADE: usize = 6;
/// Edges of such a graph before closing, at most.
const MOST_STEPS: usize = 8;
const REFUTED: u8 = 2;

/// x, then (1103515245 x + 12345) mod 2^31.
struct Numbers {
    state: u64,
}

impl Numbers {
    /// The next number's high bits, mod `end`.
    fn below(&mut self, end: usize) -> usize {
        self.state = (self.state * 1103515245 + 12345) % (1 << 31);
        (self.state / 65536) as usize % end
    }
}

#[derive(Default)]
struct Counts {
    refuted: usize,
    passing: usize,
    drawn: usize,
    met: usize,
    broken: usize,
    graphs: usize,
    meeting: usize,
    edged: usize,
    holding: usize,
    breaking: usize,
}

/// The lines for the cases of `query`: those that do not agree, by number, and
/// the counts.
pub fn circle_lines<'a>(cases: impl Iterator<Item = (usize, &'a [u8])>) -> Vec<String> {
    let mut numbers = Numbers { state: 1 };
    let mut counts = Counts::default();
    let mut lines = Vec::new();
    for (place, (allowance, text)) in cases.enumerate() {
        let Ok(sheet) = sheet_bytes(text, allowance) else { continue };
        let Ok(query) = read_query(text) else { continue };
        if sheet[3] == REFUTED {
            if !agrees(&mut counts, &query, text, &sheet) {
                lines.push(format!("query {} does not agree", place + 1));
            }
            continue;
        }
        for number in 0..GRAPHS {
            let graph = made(&mut numbers, &query);
            let judged = judge(&query, &graph);
            counts.edged += usize::from(judged.line == 0 && has_edges(&graph));
            if !holds(&mut counts, judged) {
                lines.push(format!("query {} breaks in graph {}", place + 1, number + 1));
            }
        }
    }
    let Counts { refuted, passing, drawn, met, broken, graphs, meeting, edged, holding, breaking } = counts;
    lines.push(format!("{refuted} refuted, {passing} passing, {drawn} drawn, {met} judged line 0, {broken} broken"));
    lines.push(format!("{graphs} graphs, {meeting} with line 0, {edged} of them with edges, {holding} holding, {breaking} others broken"));
    lines
}

/// A refuted claim: the sheet passes, and the drawn graph has line 0 and breaks.
fn agrees(counts: &mut Counts, query: &Query, text: &[u8], sheet: &[u8]) -> bool {
    counts.refuted += 1;
    if check_line(text, sheet) != "passes refuted" {
        return false;
    }
    counts.passing += 1;
    let Ok(Some(bytes)) = drawn_bytes(text, sheet) else { return true };
    counts.drawn += 1;
    let Ok(graph) = read_graph(query, &bytes) else { return false };
    let Judgement { line, claim } = judge(query, &graph);
    counts.met += usize::from(line == 0);
    counts.broken += usize::from(claim != Outcome::Holds);
    line == 0 && claim != Outcome::Holds
}

/// A graph for a proved claim: where it has line 0, the claim holds.
fn holds(counts: &mut Counts, Judgement { line, claim }: Judgement) -> bool {
    counts.graphs += 1;
    let broken = claim != Outcome::Holds;
    counts.meeting += usize::from(line == 0);
    counts.holding += usize::from(line == 0 && !broken);
    counts.breaking += usize::from(line != 0 && broken);
    line != 0 || !broken
}

fn has_edges(graph: &Graph) -> bool {
    graph.edges.iter().flatten().any(|&row| row != 0)
}

/// The next graph of a query.
fn made(numbers: &mut Numbers, query: &Query) -> Graph {
    let tries = numbers.below(MOST_MADE + 1);
    let steps = numbers.below(MOST_STEPS + 1);
    let careful = numbers.below(2) == 1;
    let mut graph = Graph { events: Vec::new(), edges: vec![[0; MOST_EVENTS]; query.relations] };
    for _ in 0..tries {
        graph.events.push(numbers.below(1 << query.tests));
        if careful && judge(query, &graph).line != 0 {
            graph.events.pop();
        }
    }
    let count = graph.events.len();
    if count == 0 || query.relations == 0 {
        return graph;
    }
    for _ in 0..steps {
        let relation = numbers.below(query.relations);
        let from = numbers.below(count);
        let to = numbers.below(count);
        let before = graph.edges[relation][from];
        graph.edges[relation][from] |= 1 << to;
        if careful && judge(query, &graph).line != 0 {
            graph.edges[relation][from] = before;
        }
    }
    if !careful {
        for (_, line) in &query.lines {
            if let Line::Closed(name) = line {
                let relation = query.relation(name).unwrap_or_default();
                graph.edges[relation] = closure(&graph.edges[relation]);
            }
        }
    }
    graph
}
