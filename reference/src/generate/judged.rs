//! Graphs to be judged, chosen by hand: lets used twice and in lets, brackets
//! as deep as they go, several broken lines, the lowest event and pair; and
//! graphs to be cut everywhere and changed at every byte.

use super::every_way::Case;

fn events(atoms: &[u8]) -> Vec<u8> {
    atoms.iter().flat_map(|&atom| [1, 0, 1, atom]).collect()
}

/// Edges: relation, from, to.
fn edges(listed: &[(u8, u8, u8)]) -> Vec<u8> {
    listed.iter().flat_map(|&(relation, from, to)| [2, 0, 3, relation, from, to]).collect()
}

fn case(query: &str, atoms: &[u8], listed: &[(u8, u8, u8)]) -> Case {
    (query.into(), [events(atoms), edges(listed)].concat())
}

const ORDER: &str = "test R\ntest W\nrel rf\nrel co\nnever R & W\nwithin rf [W] [R]\nwithin co [W] [W]\nclosed co\n";
const CLAIM: &str = "let eco = (rf | co)+\nclaim include eco in rf | co;rf?\n";
const ROUND: &str = "test T\nrel r\nrel s\nclosed r\nassume irreflexive r\nclaim irreflexive (r | s;[T])+\n";

/// `a|(b;(a|(b; .. )))` with so many round brackets, the innermost part at the end.
fn nested(brackets: usize, innermost: &str) -> String {
    (0..brackets).rev().fold(innermost.to_string(), |inside, depth| {
        format!("{}({inside})", if depth % 2 == 0 { "a|" } else { "b;" })
    })
}

pub fn graphs() -> Vec<Case> {
    let mut cases = vec![
        // An edge before one of its events, and the events first.
        (ROUND.into(), [events(&[0]), edges(&[(1, 0, 1)]), events(&[1])].concat()),
        case(ROUND, &[0, 1], &[(1, 0, 1)]),
        // Several broken lines: the first counts, whether the claim breaks or not.
        case("test T\nrel r\nclosed r\nnever T\nclaim empty [!T];r;r\n", &[1, 1, 0], &[(0, 0, 1), (0, 1, 2)]),
        case("test T\nrel r\nassume empty r;r\nwithin r [T] [T]\nnever T\nclosed r\nclaim empty r\n", &[1, 0, 0], &[(0, 0, 1), (0, 1, 2)]),
        case("rel r\nassume irreflexive r\nassume empty r\nclaim irreflexive r;r\n", &[0, 0], &[(0, 1, 1), (0, 0, 1)]),
        // Line 0 and a claim that breaks at a high event only.
        case("test T\nrel r\nclaim irreflexive [T];r\n", &[0, 1, 0, 1], &[(0, 0, 0), (0, 2, 2), (0, 3, 3)]),
    ];
    // The lowest pair by from, then by to, whatever the order of the fields.
    for listed in [[(0, 2, 1), (0, 1, 3), (0, 1, 2)], [(0, 3, 0), (0, 2, 3), (0, 2, 1)], [(0, 0, 3), (0, 0, 0), (0, 3, 3)]] {
        for claim in ["empty r", "include r in [false]", "include r in r;r", "irreflexive r", "irreflexive r?"] {
            cases.push(case(&format!("rel r\nclaim {claim}\n"), &[0; 4], &listed));
        }
    }
    cases.extend(lets());
    cases.extend(deep());
    cases.push(widest());
    cases
}

/// A let used twice, lets in lets, up to 32 of them.
fn lets() -> Vec<Case> {
    let steps = [(0, 0, 1), (1, 1, 2), (0, 2, 3), (1, 3, 0)];
    let mut chain = "rel a\nrel b\nlet l0 = a;b\n".to_string();
    for number in 1..32 {
        chain += &format!("let l{number} = l{}{}\n", number - 1, if number % 5 == 0 { "?" } else { "" });
    }
    let mut queries = vec![
        "rel a\nrel b\nlet x = a;b\nclaim include x;x in x+\n".to_string(),
        "rel a\nrel b\nlet x = a;b\nclaim empty x;x\n".to_string(),
        "rel a\nrel b\nlet x = a;b\nlet y = x;x\nassume empty y;a\nclaim irreflexive y | x\n".to_string(),
        "rel a\nrel b\nlet x = a\nlet y = x | b\nlet z = (y;x)* | y\nclaim include z;z in z?\n".to_string(),
    ];
    queries.push(format!("{chain}claim empty l31;l30\n"));
    queries.push(format!("{chain}assume irreflexive l31\nclaim include l31 in l30;l30\n"));
    queries.iter().map(|query| case(query, &[0; 4], &steps)).collect()
}

/// 32 brackets open at once, in each kind of line, on both sides of an inclusion.
fn deep() -> Vec<Case> {
    let (one, two) = (nested(32, "a"), nested(32, "b"));
    let names = "rel a\nrel b\n";
    let queries = [
        format!("{names}claim include {one} in {two}\n"),
        format!("{names}claim include {two} in {one}\n"),
        format!("{names}claim include {one} in {one}\n"),
        format!("{names}claim empty {one}\n"),
        format!("{names}claim irreflexive {one}\n"),
        format!("{names}let x = {}\nclaim include (x) in x | a\n", nested(32, "a")),
        format!("{names}assume empty {}\nclaim include {one} in a\n", nested(32, "[false]")),
        format!("{names}claim include b;({}) in {}\n", nested(31, "a+"), nested(32, "b*")),
    ];
    let graphs: [&[(u8, u8, u8)]; 4] = [
        &[],
        &[(0, 0, 1), (1, 1, 2), (1, 2, 0)],
        &[(0, 2, 1), (0, 1, 1), (1, 0, 0)],
        &[(1, 0, 1), (1, 1, 2), (1, 2, 3), (1, 3, 0), (0, 3, 2)],
    ];
    queries.iter().flat_map(|query| graphs.map(|listed| case(query, &[0; 4], listed))).collect()
}

/// 64 events in a ring of one relation, with chords of another.
fn widest() -> Case {
    let ring: Vec<(u8, u8, u8)> = (0..64).map(|event| (0, event, (event + 1) % 64)).collect();
    let chords: Vec<(u8, u8, u8)> = (0..64).map(|event| (1, event, (event * 7 + 3) % 64)).collect();
    case("test T\nrel a\nrel b\nassume irreflexive a;b\nclaim include [T];(a;a)+ in b*;[!T];b+\n", &[1; 64], &[ring, chords].concat())
}

/// Graphs to be cut everywhere and changed at every byte.
pub fn edited() -> Vec<Case> {
    vec![
        case(&format!("{ORDER}{CLAIM}"), &[2, 2, 1], &[(1, 0, 1), (0, 1, 2)]),
        case(ROUND, &[0, 1, 1], &[(0, 0, 1), (1, 1, 2), (1, 2, 0)]),
        case(ROUND, &[], &[]),
        case(ROUND, &[], &[(0, 0, 0)]),
    ]
}
