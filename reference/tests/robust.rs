//! Every byte string gets a line: random bytes, edited queries, damaged sheets
//! and graphs. The generators are the same for the same seed, and the stored
//! kinds of cases reach every refusal they can.

use std::collections::BTreeSet;

use fence_reference::calls::{check_line, drawn_bytes, judge_line, query_line, read_line};
use fence_reference::escape::{escaped, hex, unescaped, unhex};
use fence_reference::generate::damage::{edited, refused};
use fence_reference::generate::queries::{any_shape, query};
use fence_reference::generate::rng::Rng;
use fence_reference::reading::read_query;
use fence_reference::vectors::{inputs, output, KINDS};

fn numbers_after(line: &str, start: &str) -> bool {
    line.strip_prefix(start).is_some_and(|rest| rest.split(' ').all(|number| number.parse::<u32>().is_ok()))
}

fn is_refusal(line: &str) -> bool {
    let parts: Vec<&str> = line.split(' ').collect();
    matches!(parts[..], ["refusal", number, "line", place]
        if (1..=14).contains(&number.parse::<u32>().unwrap_or(0)) && place.parse::<u32>().is_ok())
}

fn all_calls(bytes: &[u8], more: &[u8]) {
    let line = query_line(bytes, 50);
    assert!(numbers_after(&line, "proved ") || numbers_after(&line, "refuted ") || is_refusal(&line), "{line}");
    let line = read_line(bytes);
    assert!(numbers_after(&line, "accepted path ") || numbers_after(&line, "accepted ring ") || is_refusal(&line), "{line}");
    let line = check_line(bytes, more);
    assert!(line == "passes proved" || line == "passes refuted" || is_refusal(&line), "{line}");
    let line = judge_line(bytes, more);
    assert!(line.starts_with("line ") || is_refusal(&line), "{line}");
    let _ = drawn_bytes(bytes, more);
}

#[test]
fn any_bytes_get_a_line() {
    let mut rng = Rng::new(21);
    let pieces = [
        "test ", "rel ", "let ", "never ", "within ", "closed ", "assume ", "claim ", "empty ", "irreflexive ", "include ",
        " in ", "r", "T", "x", "[", "]", "(", ")", "|", ";", "*", "+", "?", "&", "!", "=", "true", "false", "\n", "\n", " ",
        "rel r\n", "test T\n", "claim empty r\n", "let x = r\n",
    ];
    for _ in 0..20_000 {
        let count = rng.below(24);
        let bytes: Vec<u8> = match rng.below(3) {
            0 => (0..count).map(|_| rng.byte()).collect(),
            1 => (0..count).map(|_| rng.pick(&pieces).to_string()).collect::<String>().into_bytes(),
            _ => {
                let shape = any_shape(&mut rng);
                let good = query(&mut rng, shape);
                edited(&mut rng, &good)
            }
        };
        let count = rng.below(40);
        let more: Vec<u8> = (0..count).map(|_| rng.below(5) as u8).collect();
        all_calls(&bytes, &more);
    }
}

#[test]
fn each_refusal_is_made() {
    let mut rng = Rng::new(22);
    for number in 1..=8 {
        for _ in 0..50 {
            let bytes = refused(&mut rng, number);
            assert_eq!(read_query(&bytes).err().map(|refused| refused.number), Some(number));
        }
    }
}

#[test]
fn lines_stand_for_bytes() {
    let mut rng = Rng::new(23);
    for _ in 0..2000 {
        let count = rng.below(30);
        let bytes: Vec<u8> = (0..count).map(|_| if rng.chance(30) { b'\\' } else { rng.byte() }).collect();
        let line = escaped(&bytes);
        assert!(line.bytes().all(|byte| (32..=126).contains(&byte)));
        assert_eq!(unescaped(&line), Some(bytes.clone()));
        assert_eq!(unhex(&hex(&bytes)), Some(bytes));
    }
    assert_eq!(unescaped("\\"), None);
    assert_eq!(unescaped("\\q"), None);
    assert_eq!(unhex("0"), None);
    assert_eq!(unhex("0G"), None);
}

#[test]
fn kinds_of_cases_reach_what_they_should() {
    for kind in KINDS {
        let lines = inputs(kind, 5, 1200).unwrap();
        assert_eq!(lines, inputs(kind, 5, 1200).unwrap());
        let answers: Vec<String> = lines.iter().map(|line| output(kind, line).unwrap()).collect();
        let refusals: BTreeSet<u32> =
            answers.iter().filter_map(|line| line.strip_prefix("refusal ")?.split(' ').next()?.parse().ok()).collect();
        let wanted: Vec<u32> = match kind {
            "read" => (1..=8).collect(),
            "query" => vec![1, 2, 3, 4, 5, 6, 8, 9, 10],
            "small-query" => (2..=8).collect(),
            "sheet" => (2..=10).collect(),
            "check" | "small-check" | "draw" | "small-draw" => vec![13, 14],
            _ => vec![12],
        };
        assert!(wanted.iter().all(|number| refusals.contains(number)), "{kind}: {refusals:?}");
    }
    assert_eq!(inputs("other", 1, 1), None);
}
