//! Places where the paper could be read in two ways, each with the reading
//! taken here and an input on which the readings differ.

use fence_reference::calls::{check_line, judge_line, query_line, read_line, sheet_bytes};

fn asks(query: &str, answer: &str) {
    assert_eq!(query_line(query.as_bytes(), 200), answer, "{query}");
}

fn accepted(query: &str) {
    let line = read_line(query.as_bytes());
    assert!(line.starts_with("accepted"), "{line}: {query}");
}

fn times(text: &str, count: usize, by: &str) -> String {
    vec![text; count].join(by)
}

#[test]
fn bytes_and_lines() {
    asks(&format!("{}\t", "a".repeat(4096)), "refusal 1 line 0");
    asks("foo\nrel \x7f\n", "refusal 2 line 2");
    asks("rel r\r\n", "refusal 2 line 1");
    asks("claim empty [false]\n ", "refusal 7 line 2");
    asks("  ", "refusal 3 line 1");
    asks("\n", "refusal 3 line 1");
    asks("", "refusal 7 line 0");
    asks("claim empty [false]", "refusal 3 line 1");
    asks("claim empty [false]\n\n", "refusal 7 line 2");
    asks("claim empty [false]\nclaim empty [false]\n", "refusal 7 line 2");
    asks("rel r\nclaim empty u\nrel s\n", "refusal 5 line 2");
}

#[test]
fn faults_left_to_right() {
    let open = |count| "(".repeat(count);
    let close = |count| ")".repeat(count);
    asks(&format!("claim empty {}#\n", open(33)), "refusal 4 line 1");
    asks(&format!("claim empty ) {}\n", open(33)), "refusal 3 line 1");
    asks(&format!("claim empty {}", open(33)), "refusal 4 line 1");
    asks(&format!("claim empty {}u v\n", open(33)), "refusal 4 line 1");
    asks("rel in", "refusal 3 line 1");
    asks("rel in\n", "refusal 5 line 1");
    asks(&format!("rel r\nclaim empty {}r(\n", open(32)), "refusal 3 line 2");
    accepted(&format!("rel r\nclaim empty {}\n", times("(r)", 33, ";")));
    asks(&format!("claim empty {}[(true)]{}\n", open(32), close(32)), "refusal 4 line 1");
    accepted(&format!("claim empty {}[true]{}\n", open(32), close(32)));
    accepted(&format!("claim empty {}[({}true{})]{}\n", open(16), open(15), close(15), close(16)));
    asks(&format!("claim empty {}[({}true{})]{}\n", open(16), open(16), close(16), close(16)), "refusal 4 line 1");
    accepted(&format!("never {}true{}\nclaim empty [true]\n", open(32), close(32)));
    asks(&format!("never {}true{}\nclaim empty [true]\n", open(33), close(33)), "refusal 4 line 1");
}

#[test]
fn tokens_and_words() {
    asks("testR\n", "refusal 3 line 1");
    accepted("test R\nclaim include[R]in[R]\n");
    accepted("test T\ntest U\nrel r\nwithin r[T][U]\nlet x=r\nnever ! ! T\nclaim empty [ T ];x\n");
    asks("rel 1r\n", "refusal 3 line 1");
    asks("rel r_\n", "refusal 3 line 1");
    asks("rel abcdefghijklmnopq\n", "refusal 3 line 1");
    accepted("rel abcdefghijklmnop\nclaim empty abcdefghijklmnop\n");
    asks("rel abcdefghijklmnop\nclaim include abcdefghijklmnopin[true]\n", "refusal 3 line 2");
    asks("never !!true\nclaim irreflexive [true]\n", "proved 0");
    for (line, number) in [
        ("rel in\n", 5),
        ("rel in in\n", 3),
        ("let in = )\n", 3),
        ("let in = u\n", 5),
        ("closed in\n", 3),
        ("never rel\n", 3),
        ("let x = in\n", 3),
        ("claim empty true\n", 3),
        ("within in [true] [true]\n", 3),
        ("test true\n", 5),
        ("test irreflexive\n", 5),
    ] {
        asks(line, &format!("refusal {number} line 1"));
    }
    accepted("rel part\nrel of\nrel rule\ntest Test\nclaim include part in of|rule;[Test]\n");
}

#[test]
fn names() {
    asks("let x = x\n", "refusal 5 line 1");
    asks("closed r\nrel r\nclaim empty r\n", "refusal 5 line 1");
    asks("rel r\nlet x = r\nclosed x\n", "refusal 5 line 3");
    asks("rel r\nlet x = r\nwithin x [true] [true]\n", "refusal 5 line 3");
    let six: String = (0..6).map(|number| format!("test t{number}\n")).collect();
    asks(&format!("{six}test t0\n"), "refusal 5 line 7");
    asks(&format!("{six}test in\n"), "refusal 5 line 7");
    asks(&format!("{six}test t6 t\n"), "refusal 3 line 7");
    asks(&format!("{six}test t6\n"), "refusal 6 line 7");
    asks("test T\nclaim empty T\n", "refusal 5 line 2");
    asks("rel r\nclaim empty [r]\n", "refusal 5 line 2");
}

#[test]
fn sizes() {
    accepted(&format!("rel r\nlet big = {}\nclaim empty r\n", times("r", 1500, ";")));
    asks(&format!("rel r\nlet big = {}\nclaim empty big\n", times("r", 1500, ";")), "refusal 8 line 3");
    let limits = "within r [true] [true]\n".repeat(4);
    asks(&format!("rel r\n{limits}claim empty {}\n", times("r", 57, ";")), "refusal 8 line 6");
    accepted(&format!("rel r\n{limits}claim empty {}\n", times("r", 56, ";")));
    let tests = |count| times("[true]", count, "|");
    accepted(&format!("claim include [true] in {}\n", tests(509)));
    asks(&format!("claim include [true] in {}\n", tests(510)), "refusal 8 line 1");
    asks(&format!("assume empty {}\nclaim empty [true]\n", tests(509)), "refusal 8 line 2");
    accepted(&format!("assume empty {}\nclaim empty [true]\n", tests(508)));
    accepted(&format!("assume irreflexive {}\nclaim irreflexive [true]\n", tests(510)));
    asks(&format!("assume irreflexive {}\nclaim irreflexive [true]\n", tests(511)), "refusal 8 line 2");
    accepted(&format!("rel r\nassume irreflexive {}\nclaim empty r\n", times("r", 65, ";")));
    accepted(&format!("rel r\nassume irreflexive {}\nclaim empty r\n", times("r", 512, ";")));
    asks(&format!("rel r\nassume irreflexive {}\nclaim empty r\n", times("r", 513, ";")), "refusal 8 line 3");
    accepted(&format!("rel r\nclaim include r in {}\n", times("r", 62, ";")));
    asks(&format!("rel r\nclaim include r in {}\n", times("r", 63, ";")), "refusal 8 line 2");
    accepted(&format!("rel r\nassume empty {}\nclaim irreflexive r\n", times("r", 29, ";")));
    asks(&format!("rel r\nassume empty {}\nclaim irreflexive r\n", times("r", 30, ";")), "refusal 8 line 3");
}

/// 31 lets of 24 uses each stand for 24^31 leaves.
#[test]
fn enormous_lets() {
    let mut lets = "rel r\nlet x0 = r\n".to_string();
    for number in 1..32 {
        lets += &format!("let x{number} = {}\n", times(&format!("x{}", number - 1), 24, ";"));
    }
    accepted(&format!("{lets}claim empty r\n"));
    asks(&format!("{lets}claim empty x31\n"), "refusal 8 line 34");
    asks(&format!("{lets}assume irreflexive x31\nclaim empty r\n"), "refusal 8 line 35");
    assert_eq!(judge_line(format!("{lets}claim empty r\n").as_bytes(), &[1, 0, 1, 0]), "line 0 holds");
}

/// Long chains and deep nesting through lets need no deep stack.
#[test]
fn long_chains() {
    let postfixes = "*+?".repeat(1300);
    asks(&format!("rel r\nclaim include r{postfixes} in r*\n"), "proved 1");
    asks(&format!("never {}true\nclaim irreflexive [true]\n", "!".repeat(4000)), "proved 0");
    asks(&format!("claim include [true] in {}\n", times("[true]", 509, ";")), "proved 0");
    let mut deep = "rel r\nlet x0 = r\n".to_string();
    for number in 1..32 {
        deep += &format!("let x{number} = {}x{}{}\n", "(".repeat(32), number - 1, ")*".repeat(32));
    }
    assert!(deep.len() < 4000);
    asks(&format!("{deep}claim include x31 in r*\n"), "proved 1");
    assert_eq!(judge_line(format!("{deep}claim include x31 in r*\n").as_bytes(), &[1, 0, 1, 0]), "line 0 holds");
}

#[test]
fn standings() {
    asks("rel r\nclaim empty r;[false]\n", "proved 1");
    asks("rel r\nclaim include r* in r*|r;[false]\n", "proved 2");
    asks("rel r\nwithin r [true] [false]\nclaim empty r\n", "proved 1");
    asks("test T\nrel r\nwithin r [T] [!T]\nclosed r\nclaim empty r;r\n", "proved 1");
    assert_eq!(sheet_bytes(b"rel r\nclaim include r in r\n", 200).unwrap().last(), Some(&3));
    asks("claim include [true] in [true]\n", "proved 0");
    assert_eq!(query_line(b"rel a\nrel b\nclaim empty a|b\n", 1), "refusal 10 line 0");
    assert_eq!(query_line(b"rel a\nrel b\nclaim empty a|b\n", 2), "refuted 0 0 0");
    assert_eq!(query_line(b"claim irreflexive [true]\n", 0), "refusal 9 line 0");
    assert_eq!(query_line(b"claim irreflexive [true]\n", 1), "refuted 0");
    asks("rel r\nclaim irreflexive r*\n", "refuted 0");
}

/// Rows of M and N: where they stand in the sheet's standing number `index`.
fn row(sheet: &[u8], index: usize, table: usize, number: usize) -> u32 {
    let at = 4 + 269 * index + 3 + 10 + 128 * table + 4 * number;
    u32::from_be_bytes([sheet[at], sheet[at + 1], sheet[at + 2], sheet[at + 3]])
}

#[test]
fn ring_tables() {
    let c8 = sheet_bytes(b"test T\nrel r\nassume irreflexive [T]\nclaim irreflexive r;[T];r\n", 200).unwrap();
    // The second any, number 2, is reached only from itself.
    assert_eq!(row(&c8, 0, 0, 2), 1 << 2);
    assert_eq!(row(&c8, 0, 0, 3), 0);
    // N has p = 0; the first atom is not inside.
    let twice = sheet_bytes(b"rel r\nassume irreflexive r+\nclaim irreflexive r;r\n", 200).unwrap();
    assert_eq!(row(&twice, 0, 1, 1), 0);
    assert_eq!(row(&twice, 1, 1, 1), 0b1011);
    let once = sheet_bytes(b"rel r\nassume irreflexive r*\nclaim irreflexive r\n", 200).unwrap();
    assert_eq!(once.len(), 4 + 269);
    assert_eq!((0..32).map(|number| row(&once, 0, 1, number)).sum::<u32>(), 0);
    // Z sees the first atom.
    let flagged = sheet_bytes(b"rel r\nassume irreflexive r?\nclaim irreflexive r\n", 200).unwrap();
    assert_eq!((flagged.len(), flagged[8]), (4 + 269, 1));
}

fn ring_standing(first_atom: u8, zero: u8, left: u64) -> Vec<u8> {
    let mut field = vec![3, 1, 10, first_atom, zero];
    field.extend(left.to_be_bytes());
    field.resize(269, 0);
    field
}

fn with_one_more(query: &str, field: &[u8]) -> String {
    let mut sheet = sheet_bytes(query.as_bytes(), 200).unwrap();
    sheet.extend(field);
    check_line(query.as_bytes(), &sheet)
}

#[test]
fn extra_standings() {
    // P empty.
    let path = "rel r\nclaim include r in r\n";
    assert_eq!(with_one_more(path, &[&[3, 0, 16][..], &[0; 16]].concat()), "passes proved");
    // A first atom under a `never`.
    let never = "test T\nrel r\nnever T\n";
    let once = format!("{never}assume irreflexive r\nclaim irreflexive r\n");
    assert_eq!(with_one_more(&once, &ring_standing(1, 0, 1)), "passes proved");
    let twice = format!("{never}assume irreflexive r+\nclaim irreflexive r;r\n");
    assert_eq!(with_one_more(&twice, &ring_standing(1, 0, 1)), "refusal 14 line 0");
    // Z is 0 although the first atom is a right word.
    let optional = "rel r\nassume irreflexive r?\nclaim irreflexive r\n";
    assert_eq!(with_one_more(optional, &ring_standing(0, 0, 1)), "refusal 14 line 0");
    // A step of a standing that no prefix has.
    let steps = "rel r\nrel s\nclaim include r;s in r;s\n";
    let mut field = vec![3, 0, 16];
    field.extend(1u64.to_be_bytes());
    field.extend(0u64.to_be_bytes());
    assert_eq!(with_one_more(steps, &field), "refusal 14 line 0");
}

#[test]
fn sheets() {
    let query = "test T\nrel r\nnever T\nclaim empty r;r\n";
    let checked = |sheet: &[u8]| check_line(query.as_bytes(), sheet);
    assert_eq!(checked(&[]), "refusal 13 line 1");
    assert_eq!(checked(&[1, 0, 1, 2]), "refusal 13 line 2");
    assert_eq!(checked(&[1, 0, 1, 2, 2, 0, 5, 0, 0, 0, 0, 0]), "passes refuted");
    assert_eq!(checked(&[1, 0, 1, 2, 2, 0, 5, 0, 0, 0, 0, 0, 7]), "refusal 13 line 3");
    assert_eq!(checked(&[1, 0, 1, 2, 2, 0, 5, 0, 0, 1, 0, 0]), "refusal 14 line 0");
    assert_eq!(checked(&[1, 0, 1, 2, 2, 0, 3, 0, 0, 0]), "refusal 14 line 0");
    assert_eq!(checked(&[1, 0, 1, 2, 2, 0, 3, 2, 0, 0]), "refusal 13 line 2");
    assert_eq!(checked(&[1, 0, 1, 2, 2, 0, 3, 0, 1, 0]), "refusal 13 line 2");
    assert_eq!(checked(&[1, 0, 1, 1]), "refusal 14 line 0");
    assert_eq!(checked(&[1, 0, 1, 1, 3]), "refusal 13 line 2");
    assert_eq!(check_line(b"never true\nclaim irreflexive [true]\n", &[1, 0, 1, 1]), "passes proved");
    // Not the shortest word.
    let longer = [1, 0, 1, 2, 2, 0, 5, 0, 0, 0, 0, 0];
    assert_eq!(check_line(b"rel r\nclaim empty r+\n", &longer), "passes refuted");
}

#[test]
fn graphs() {
    let query = "test T\nrel r\nassume empty r\nnever T\nclaim irreflexive r\n";
    let judged = |graph: &[u8]| judge_line(query.as_bytes(), graph);
    assert_eq!(judged(&[]), "line 0 holds");
    assert_eq!(judged(&[1, 0, 1, 1, 2, 0, 3, 0, 0, 0]), "line 3 breaks 0");
    assert_eq!(judged(&[1, 0, 1, 1]), "line 4 holds");
    // Listed edges only: no limits and no closing.
    let closed = "rel r\nclosed r\nwithin r [false] [false]\nclaim empty r;r;r\n";
    let line = [1, 0, 1, 0, 1, 0, 1, 0, 1, 0, 1, 0, 2, 0, 3, 0, 0, 1, 2, 0, 3, 0, 1, 2];
    assert_eq!(judge_line(closed.as_bytes(), &line), "line 2 holds");
    assert_eq!(judge_line(b"rel r\nclaim empty r;r\n", &line), "line 0 breaks 0 2");
    assert_eq!(judge_line(b"rel r\nclaim include r in r;r\n", &line), "line 0 breaks 0 1");
    let over = format!("rel r\nclaim empty {}\n", times("r", 65, ";"));
    assert_eq!(judge_line(over.as_bytes(), &[]), "refusal 8 line 2");
}
