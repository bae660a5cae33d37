//! The paper's cases C1 to C12 and every row of its table of refusals.

use fence_reference::calls::{check_line, judge_line, query_line, read_line, sheet_bytes, sheet_into};
use fence_reference::refusal::refusal;

const C1: &str = "test R
test W
rel rf
rel co
never R & W
within rf [W] [R]
within co [W] [W]
closed co
let eco = (rf | co)+
claim include eco in rf | co;rf?
";

fn without(word: &str) -> String {
    C1.lines().filter(|line| !line.starts_with(word)).map(|line| format!("{line}\n")).collect()
}

fn asks(query: &str, answer: &str) {
    assert_eq!(query_line(query.as_bytes(), 200), answer, "{query}");
}

#[test]
fn cases() {
    asks(C1, "proved 3");
    assert_eq!(sheet_bytes(C1.as_bytes(), 200).unwrap().len(), 61);
    asks(&without("never"), "refuted 2 0 3 0 1");
    asks(&without("closed"), "refuted 2 1 2 1 2");
    assert_eq!(query_line(C1.as_bytes(), 2), "refusal 10 line 0");
    assert_eq!(query_line(C1.as_bytes(), 3), "proved 3");
    asks("rel r\nassume irreflexive r;r\nclaim irreflexive r\n", "proved 1");
    asks("rel r\nassume irreflexive r\nclaim irreflexive r;r\n", "refuted 0 0 0 0 0");
    asks("rel a\nrel b\nassume irreflexive a;b\nclaim irreflexive b;a\n", "proved 2");
    asks("test T\nrel r\nassume irreflexive [T]\nclaim irreflexive r;[T];r\n", "proved 4");
    asks("rel r\nassume irreflexive r\nclaim empty r\n", "refuted 0 0 0");
    asks("claim irreflexive [true]\n", "refuted 0");
    asks("never true\nclaim irreflexive [true]\n", "proved 0");
    asks("", "refusal 7 line 0");
}

#[test]
fn refusals_of_queries() {
    let long = format!("{}\n", "a".repeat(4096));
    asks(&long, "refusal 1 line 0");
    asks("rel\t", "refusal 2 line 1");
    asks("rel", "refusal 3 line 1");
    asks("rel\n", "refusal 3 line 1");
    asks(&format!("claim empty {}\n", "(".repeat(33)), "refusal 4 line 1");
    asks(&format!("claim empty {}", "(".repeat(33)), "refusal 4 line 1");
    asks("rel in\n", "refusal 5 line 1");
    let tests: String = (0..7).map(|number| format!("test t{number}\n")).collect();
    asks(&tests, "refusal 6 line 7");
    let relations: String = (0..17).map(|number| format!("rel r{number}\n")).collect();
    asks(&relations, "refusal 6 line 17");
    let lets: String = (0..33).map(|number| format!("let x{number} = [true]\n")).collect();
    asks(&lets, "refusal 6 line 33");
    asks("rel r\n", "refusal 7 line 0");
    asks("claim empty [false]\nrel r\n", "refusal 7 line 2");
    let names = vec!["r"; 65].join(";");
    asks(&format!("rel r\nclaim empty {names}\n"), "refusal 8 line 2");
    asks(&format!("rel r\nclaim empty {}\n", vec!["r"; 64].join(";")), &word_of(64));
    assert_eq!(query_line(C1.as_bytes(), 0), "refusal 9 line 0");
    assert_eq!(query_line(C1.as_bytes(), 4097), "refusal 9 line 0");
    assert_eq!(query_line(C1.as_bytes(), 4096), "proved 3");
    assert_eq!(query_line(C1.as_bytes(), 2), "refusal 10 line 0");
    assert_eq!(sheet_into(C1.as_bytes(), 200, 60), Err(refusal(11, 0)));
    assert_eq!(sheet_into(C1.as_bytes(), 200, 61).unwrap().len(), 61);
    assert_eq!(sheet_into(C1.as_bytes(), 2, 60), Err(refusal(10, 0)));
}

/// The line for the word of so many steps over atom 0 and relation 0.
fn word_of(length: usize) -> String {
    format!("refuted {}", vec!["0"; 2 * length + 1].join(" "))
}

#[test]
fn refusals_of_graphs() {
    let judged = |graph: &[u8]| judge_line(C1.as_bytes(), graph);
    let write = [1, 0, 1, 2];
    let read = [1, 0, 1, 1];
    let joined = |parts: &[&[u8]]| parts.concat();
    assert_eq!(judged(&[]), "line 0 holds");
    assert_eq!(judged(&joined(&[&write, &read, &[2, 0, 3, 0, 0, 1]])), "line 0 holds");
    // An edge to a missing event.
    assert_eq!(judged(&joined(&[&write, &[2, 0, 3, 0, 0, 1]])), "refusal 12 line 2");
    // Cut after one, two, three bytes.
    assert_eq!(judged(&[1]), "refusal 12 line 1");
    assert_eq!(judged(&[1, 0]), "refusal 12 line 1");
    assert_eq!(judged(&joined(&[&write, &[1, 0, 1]])), "refusal 12 line 2");
    // Tag.
    assert_eq!(judged(&[3, 0, 1, 2]), "refusal 12 line 1");
    assert_eq!(judged(&[0, 0, 1, 2]), "refusal 12 line 1");
    // Tag 1 after 2.
    assert_eq!(judged(&joined(&[&write, &[2, 0, 3, 1, 0, 0], &write])), "refusal 12 line 3");
    // Length.
    assert_eq!(judged(&[1, 0, 2, 2, 2]), "refusal 12 line 1");
    assert_eq!(judged(&[1, 0, 0]), "refusal 12 line 1");
    assert_eq!(judged(&joined(&[&write, &[2, 0, 2, 0, 0]])), "refusal 12 line 2");
    // Numbers too large.
    assert_eq!(judged(&[1, 0, 1, 4]), "refusal 12 line 1");
    assert_eq!(judged(&joined(&[&write, &[2, 0, 3, 2, 0, 0]])), "refusal 12 line 2");
    assert_eq!(judged(&joined(&[&write, &[2, 0, 3, 0, 1, 0]])), "refusal 12 line 2");
    assert_eq!(judged(&[2, 0, 3, 0, 0, 0]), "refusal 12 line 1");
    // The 65th event.
    assert_eq!(judged(&write.repeat(65)), "refusal 12 line 65");
    assert_eq!(judged(&write.repeat(64)), "line 0 holds");
    // An edge repeated.
    let edge = [2, 0, 3, 1, 0, 0];
    assert_eq!(judged(&joined(&[&write, &edge, &edge])), "refusal 12 line 3");
    // Refusals of the query come first.
    assert_eq!(judge_line(b"rel in\n", &[9]), "refusal 5 line 1");
}

#[test]
fn refusals_of_sheets() {
    let checked = |sheet: &[u8]| check_line(C1.as_bytes(), sheet);
    let good = sheet_bytes(C1.as_bytes(), 200).unwrap();
    assert_eq!(checked(&good), "passes proved");
    // Verdict 3.
    assert_eq!(checked(&[1, 0, 1, 3]), "refusal 13 line 1");
    assert_eq!(checked(&[1, 0, 1, 0]), "refusal 13 line 1");
    // Cut, everywhere.
    for length in 0..good.len() {
        let expected = match length {
            0..=3 => "refusal 13 line 1".to_string(),
            4 | 23 | 42 => "refusal 14 line 0".to_string(),
            _ => format!("refusal 13 line {}", 2 + (length - 4) / 19),
        };
        assert_eq!(checked(&good[..length]), expected, "{length}");
    }
    // Tag and length.
    for (at, value) in [(0, 2), (4, 2), (4, 0), (23, 1), (1, 1), (2, 0), (2, 2), (5, 1), (6, 15), (6, 17)] {
        let mut sheet = good.clone();
        sheet[at] = value;
        let field = if at < 4 { 1 } else { 2 + (at - 4) / 19 };
        assert_eq!(checked(&sheet), format!("refusal 13 line {field}"), "{at} {value}");
    }
    // A bit for an occurrence that its side lacks: 2 left, 3 and two anys right.
    for (at, value) in [(14, 0x04), (7, 0x80), (22, 0x20), (15, 0x01)] {
        let mut sheet = good.clone();
        sheet[at] |= value;
        assert_eq!(checked(&sheet), "refusal 13 line 2", "{at}");
    }
    // A standing repeated.
    let twice = [&good[..], &good[4..23]].concat();
    assert_eq!(checked(&twice), "refusal 13 line 5");
    // One standing missing.
    assert_eq!(checked(&[&good[..4], &good[23..]].concat()), "refusal 14 line 0");
    // A word.
    let c2 = without("never");
    let refuted = sheet_bytes(c2.as_bytes(), 200).unwrap();
    assert_eq!(check_line(c2.as_bytes(), &refuted), "passes refuted");
    assert_eq!(checked(&refuted), "refusal 14 line 0");
    assert_eq!(check_line(c2.as_bytes(), &good), "refusal 14 line 0");
    assert_eq!(check_line(c2.as_bytes(), &[1, 0, 1, 2]), "refusal 13 line 2");
    assert_eq!(check_line(c2.as_bytes(), &[1, 0, 1, 2, 2, 0, 0]), "refusal 13 line 2");
    assert_eq!(check_line(c2.as_bytes(), &[1, 0, 1, 2, 2, 0, 2, 0, 0]), "refusal 13 line 2");
    assert_eq!(check_line(c2.as_bytes(), &[1, 0, 1, 2, 2, 0, 1, 4]), "refusal 13 line 2");
    assert_eq!(check_line(c2.as_bytes(), &[1, 0, 1, 2, 2, 0, 3, 0, 2, 0]), "refusal 13 line 2");
    assert_eq!(check_line(c2.as_bytes(), &[&refuted[..], &[0]].concat()), "refusal 13 line 3");
    assert_eq!(check_line(c2.as_bytes(), &[&refuted[..], &refuted[4..]].concat()), "refusal 13 line 3");
    // A flag that is neither 0 nor 1.
    let c8 = "test T\nrel r\nassume irreflexive [T]\nclaim irreflexive r;[T];r\n";
    let ring = sheet_bytes(c8.as_bytes(), 200).unwrap();
    assert_eq!(ring.len(), 4 + 4 * 269);
    assert_eq!(check_line(c8.as_bytes(), &ring), "passes proved");
    let mut flagged = ring.clone();
    flagged[8] = 2;
    assert_eq!(check_line(c8.as_bytes(), &flagged), "refusal 13 line 2");
    // The first atom, bit 0 in a row of M, rows that the right side lacks, row 0 of N.
    for (at, value) in [(7, 2), (20, 1), (17 + 4 * 3 + 3, 2), (17 + 3, 8), (17 + 128 + 3, 1), (17 + 128 + 12 + 3, 1)] {
        let mut sheet = ring.clone();
        sheet[at] = value;
        assert_eq!(check_line(c8.as_bytes(), &sheet), "refusal 13 line 2", "{at}");
    }
    assert_eq!(check_line(b"rel in\n", &good), "refusal 5 line 1");
}

/// Standing 4,097 is wrong whatever it holds.
#[test]
fn standings_over_the_most() {
    let query = "rel r\nclaim include r;r;r;r;r;r;r in r;r;r;r;r;r;r\n";
    assert_eq!(read_line(query.as_bytes()), "accepted path 7 9");
    let mut sheet = vec![1, 0, 1, 1];
    for number in 0..4097u64 {
        sheet.extend([3, 0, 16]);
        sheet.extend((number % 128).to_be_bytes());
        sheet.extend((number / 128).to_be_bytes());
        let expected = match number {
            4095 => "refusal 14 line 0",
            4096 => "refusal 13 line 4098",
            _ => continue,
        };
        assert_eq!(check_line(query.as_bytes(), &sheet), expected);
    }
    sheet.truncate(4 + 4096 * 19 + 1);
    assert_eq!(check_line(query.as_bytes(), &sheet), "refusal 13 line 4098");
}
