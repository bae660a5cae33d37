//! Random small queries: the automata, the search, the sheets and the graphs
//! against the definitions followed directly.

mod by_definition;

use by_definition::graphs::Picture;
use by_definition::standings::{search, Found};
use fence_reference::calls::{check_line, drawn_bytes, judge_line, query_line, sheet_bytes};
use fence_reference::counting::sizes;
use fence_reference::generate::every_way;
use fence_reference::generate::sheets::sheet;
use fence_reference::generate::limits::wide_sides;
use fence_reference::generate::queries::{query, turning_query, Shape, SMALL, TINY};
use fence_reference::generate::rng::Rng;
use fence_reference::reading::{read_query, Query};

const TWO_TESTS: Shape = Shape { tests: 2, relations: 2, lets: 2, leaves: 4, limits: 3, assumptions: 2 };

fn standings_of(sheet: &[u8], size: usize) -> Vec<Vec<u8>> {
    sheet[4..].chunks(size + 3).map(|field| field[3..].to_vec()).collect()
}

#[derive(Default, Debug)]
struct Tally {
    proved: usize,
    refuted: usize,
    spent: usize,
    skipped: usize,
}

fn agree(bytes: &[u8], query: &Query, allowance: usize, tally: &mut Tally) {
    let right = sizes(query).right.occurrences as usize;
    let shown = String::from_utf8_lossy(bytes);
    let line = query_line(bytes, allowance);
    match search(query, allowance, right, 1500) {
        Found::TooLong => tally.skipped += 1,
        Found::Spent => {
            tally.spent += 1;
            assert_eq!(line, "refusal 10 line 0", "{shown}");
        }
        Found::Refuted(word) => {
            tally.refuted += 1;
            let numbers: Vec<String> = word.iter().map(usize::to_string).collect();
            assert_eq!(line, format!("refuted {}", numbers.join(" ")), "{shown}");
        }
        Found::Proved(standings) => {
            tally.proved += 1;
            assert_eq!(line, format!("proved {}", standings.len()), "{shown}");
            let sheet = sheet_bytes(bytes, allowance).unwrap();
            let size = if query.is_ring() { 266 } else { 16 };
            assert_eq!(standings_of(&sheet, size), standings, "{shown}");
        }
    }
}

fn search_agrees(seed: u64, shape: Shape, count: usize) {
    let mut rng = Rng::new(seed);
    let mut tally = Tally::default();
    for _ in 0..count {
        let bytes = query(&mut rng, shape);
        let Ok(query) = read_query(&bytes) else { continue };
        let allowance = *rng.pick(&[1, 2, 3, 5, 30, 30]);
        agree(&bytes, &query, allowance, &mut tally);
    }
    println!("{tally:?}");
    assert!(tally.proved > count / 10 && tally.refuted > count / 10, "{tally:?}");
}

#[test]
fn search_agrees_on_tiny_queries() {
    search_agrees(1, TINY, 4000);
}

#[test]
fn search_agrees_with_two_tests() {
    search_agrees(2, TWO_TESTS, 2000);
}

#[test]
fn search_agrees_on_small_queries() {
    search_agrees(3, SMALL, 600);
}

/// Rings covered by their turn begun elsewhere and repeated.
#[test]
fn search_agrees_on_turning_rings() {
    let mut rng = Rng::new(8);
    let mut tally = Tally::default();
    for _ in 0..1000 {
        let bytes = turning_query(&mut rng);
        agree(&bytes, &read_query(&bytes).unwrap(), 200, &mut tally);
    }
    assert!(tally.proved > 300 && tally.refuted > 50, "{tally:?}");
}

/// Sides with 64 and 31 occurrences.
#[test]
fn search_agrees_on_wide_sides() {
    let mut tally = Tally::default();
    for bytes in wide_sides() {
        agree(&bytes, &read_query(&bytes).unwrap(), 200, &mut tally);
    }
    assert!(tally.proved > 20 && tally.skipped == 0, "{tally:?}");
}

/// A random graph of few events, mended to meet `within` and `closed` lines
/// in most cases.
fn random_graph(rng: &mut Rng, query: &Query) -> Vec<u8> {
    use fence_reference::tree::Line;
    let live = by_definition::live_atoms(query);
    let mut picture = Picture::default();
    let mend = rng.chance(85);
    for _ in 0..rng.between(0, 4) {
        if mend && !live.is_empty() {
            picture.atoms.push(*rng.pick(&live));
        } else if !mend {
            picture.atoms.push(rng.below(1 << query.tests));
        }
    }
    let events = picture.atoms.len();
    let dense = rng.between(5, 45);
    for _ in 0..query.relations {
        let mut pairs = by_definition::graphs::Pairs::new();
        for from in 0..events {
            for to in 0..events {
                if rng.chance(dense) {
                    pairs.insert((from, to));
                }
            }
        }
        picture.edges.push(pairs);
    }
    if mend {
        for (_, line) in &query.lines {
            if let Line::Within(name, from, to) = line {
                let relation = query.relation(name).unwrap();
                let atoms = picture.atoms.clone();
                picture.edges[relation].retain(|pair| {
                    by_definition::holds(query, from, atoms[pair.0]) && by_definition::holds(query, to, atoms[pair.1])
                });
            }
        }
        for (_, line) in &query.lines {
            if let Line::Closed(name) = line {
                let relation = query.relation(name).unwrap();
                picture.edges[relation] = by_definition::graphs::transitive(&picture.edges[relation]);
            }
        }
    }
    let mut bytes = Vec::new();
    for &atom in &picture.atoms {
        bytes.extend([1, 0, 1, atom as u8]);
    }
    for (relation, pairs) in picture.edges.iter().enumerate() {
        for pair in pairs {
            bytes.extend([2, 0, 3, relation as u8, pair.0 as u8, pair.1 as u8]);
        }
    }
    bytes
}

/// Random graphs are judged as by sets of pairs; one that meets the lines of
/// a proved query never breaks its claim.
#[test]
fn graphs_agree() {
    let mut rng = Rng::new(4);
    let mut met = 0;
    let mut broken = 0;
    for round in 0..3000 {
        let bytes = query(&mut rng, if round % 2 == 0 { TINY } else { SMALL });
        let Ok(query) = read_query(&bytes) else { continue };
        let proved = query_line(&bytes, 300).starts_with("proved");
        for _ in 0..8 {
            let graph = random_graph(&mut rng, &query);
            let judged = judge_line(&bytes, &graph);
            assert_eq!(judged, Picture::from_bytes(&query, &graph).judged(&query));
            if judged.starts_with("line 0 ") {
                met += usize::from(proved);
                broken += usize::from(judged.contains("breaks"));
                assert!(!proved || judged == "line 0 holds", "{}", String::from_utf8_lossy(&bytes));
            }
        }
    }
    assert!(met > 1000 && broken > 1000, "{met} {broken}");
}

/// Every answer's sheet passes; a refuting word's drawn graph meets all lines
/// and breaks the claim.
#[test]
fn sheets_pass_and_drawings_refute() {
    let mut rng = Rng::new(5);
    let (mut proved, mut refuted) = (0, 0);
    for round in 0..4000 {
        let bytes = query(&mut rng, if round % 2 == 0 { TINY } else { SMALL });
        let Ok(sheet) = sheet_bytes(&bytes, 300) else { continue };
        let shown = String::from_utf8_lossy(&bytes);
        if sheet[3] == 1 {
            proved += 1;
            assert_eq!(check_line(&bytes, &sheet), "passes proved", "{shown}");
            assert_eq!(drawn_bytes(&bytes, &sheet), Ok(None));
        } else {
            refuted += 1;
            assert_eq!(check_line(&bytes, &sheet), "passes refuted", "{shown}");
            let graph = drawn_bytes(&bytes, &sheet).unwrap().unwrap();
            let judged = judge_line(&bytes, &graph);
            assert!(judged.starts_with("line 0 breaks"), "{judged}\n{shown}");
            let query = read_query(&bytes).unwrap();
            assert_eq!(judged, Picture::from_bytes(&query, &graph).judged(&query));
        }
    }
    assert!(proved > 500 && refuted > 500, "{proved} {refuted}");
}

/// Words chosen at random: the sheet check takes exactly the refuting ones.
#[test]
fn words_agree() {
    let mut rng = Rng::new(6);
    let (mut taken, mut left) = (0, 0);
    for _ in 0..3000 {
        let bytes = query(&mut rng, TINY);
        let Ok(query) = read_query(&bytes) else { continue };
        let right = sizes(&query).right.occurrences as usize;
        for _ in 0..6 {
            let length = if query.relations == 0 { 0 } else { rng.below(4) };
            let mut word = by_definition::Text {
                atoms: (0..=length).map(|_| rng.below(1 << query.tests)).collect(),
                relations: (0..length).map(|_| rng.below(query.relations)).collect(),
            };
            if rng.chance(50) {
                word.atoms[length] = word.atoms[0];
            }
            let numbers = word.numbers();
            let mut sheet = vec![1, 0, 1, 2, 2, 0, numbers.len() as u8];
            sheet.extend(numbers.iter().map(|&number| number as u8));
            let refutes = by_definition::refutes(&query, &word, right);
            let expected = if refutes { "passes refuted" } else { "refusal 14 line 0" };
            assert_eq!(check_line(&bytes, &sheet), expected, "{}{:?}", String::from_utf8_lossy(&bytes), word);
            taken += usize::from(refutes);
            left += usize::from(!refutes);
        }
    }
    assert!(taken > 1000 && left > 1000, "{taken} {left}");
}

/// Damaged and made-up sheets: the same line from the check by definitions.
#[test]
fn sheet_checks_agree() {
    let mut rng = Rng::new(7);
    let agree = |bytes: &[u8], sheet: &[u8]| {
        let query = read_query(bytes).unwrap();
        let line = check_line(bytes, sheet);
        assert_eq!(line, by_definition::sheets::checked(&query, sheet), "{}{sheet:?}", String::from_utf8_lossy(bytes));
        line
    };
    for (bytes, sheet) in every_way::sheets().into_iter().chain(every_way::highest_numbers()) {
        agree(&bytes, &sheet);
    }
    let mut lines = std::collections::BTreeMap::new();
    for round in 0..6000 {
        let bytes = query(&mut rng, if round % 3 == 0 { TWO_TESTS } else { TINY });
        let Some(made) = sheet(&mut rng, &bytes, 8) else { continue };
        let line = agree(&bytes, &made);
        *lines.entry(line.split(" line").next().unwrap_or("").to_string()).or_insert(0) += 1;
    }
    println!("{lines:?}");
    assert!(lines.len() == 4 && lines.values().all(|&count| count > 200), "{lines:?}");
}
