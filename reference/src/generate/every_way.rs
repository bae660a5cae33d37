//! One case for each cause of refusals 12, 13 and 14, chosen by hand so that
//! it is the only cause, and good sheets and graphs beside them.

use crate::calls::sheet_bytes;

/// A query and the bytes of a sheet or graph.
pub type Case = (Vec<u8>, Vec<u8>);

const PATH: &str = "test T\nrel r\nrel s\nnever T\nclaim include r;s in r;s\n";
const RING: &str = "test T\nrel r\nnever T\nassume irreflexive r+\nclaim irreflexive r;r\n";
const PATH_REFUTED: &str = "test T\nrel r\nnever T\nclaim include r|r;r|r;r;r in r;r\n";
const RING_REFUTED: &str = "test T\ntest U\nrel r\nrel s\nnever U\nassume irreflexive s\nclaim irreflexive r|s|r;r\n";
const LENGTH_ZERO: [&str; 2] = ["rel r\nclaim include r? in r\n", "rel r\nassume irreflexive r\nclaim irreflexive r?\n"];

fn written(query: &str) -> Vec<u8> {
    sheet_bytes(query.as_bytes(), 200).unwrap_or_default()
}

fn with(query: &str, changes: &[(usize, u8)]) -> Case {
    let mut sheet = written(query);
    for &(at, value) in changes {
        sheet[at] = value;
    }
    (query.into(), sheet)
}

fn word(query: &str, numbers: &[u8]) -> Case {
    let mut sheet = vec![1, 0, 1, 2, 2, 0, numbers.len() as u8];
    sheet.extend(numbers);
    (query.into(), sheet)
}

fn path_standing(left: u64, right: u64) -> Vec<u8> {
    [&[3, 0, 16][..], &left.to_be_bytes(), &right.to_be_bytes()].concat()
}

fn ring_standing(first_atom: u8, zero: u8, left: u64) -> Vec<u8> {
    let mut field = vec![3, 1, 10, first_atom, zero];
    field.extend(left.to_be_bytes());
    field.resize(269, 0);
    field
}

fn extended(query: &str, more: &[u8]) -> Case {
    (query.into(), [written(query), more.to_vec()].concat())
}

/// Sheets to be cut everywhere and changed at every byte: of a proof and of a
/// refutation, for a path and for a ring claim.
pub fn edited_sheets() -> Vec<Case> {
    let order = "test R\ntest W\nrel rf\nrel co\nnever R & W\nwithin rf [W] [R]\nwithin co [W] [W]\n";
    let claim = "let eco = (rf | co)+\nclaim include eco in rf | co;rf?\n";
    let queries = [
        format!("{order}closed co\n{claim}"),
        "rel r\nassume irreflexive r;r\nclaim irreflexive r\n".to_string(),
        format!("{order}{claim}"),
        "rel r\nassume irreflexive r\nclaim irreflexive r;r\n".to_string(),
    ];
    queries.iter().map(|query| (query.as_bytes().to_vec(), written(query))).collect()
}

pub fn sheets() -> Vec<Case> {
    let mut cases = Vec::new();
    for query in [PATH, RING, PATH_REFUTED, RING_REFUTED, LENGTH_ZERO[0], LENGTH_ZERO[1]] {
        cases.push((query.into(), written(query)));
        // No bytes, cut in each place of the first two fields.
        let sheet = written(query);
        for length in 0..sheet.len().min(9) {
            cases.push((query.into(), sheet[..length].to_vec()));
        }
        cases.push((query.into(), sheet[..sheet.len() - 1].to_vec()));
        // Verdict, tag and length of both fields.
        for (at, value) in [(3, 0), (3, 3), (0, 2), (1, 1), (2, 0), (2, 2), (4, 1), (4, 4), (5, 2), (6, 4)] {
            if at < sheet.len() {
                cases.push(with(query, &[(at, value)]));
            }
        }
    }
    cases.extend(standing_fields());
    cases.extend(listed_standings());
    cases.extend(words());
    cases
}

/// One more standing that would complete a refuting word but for the numbers
/// 30 and 31 of M and N.
pub fn highest_numbers() -> Vec<Case> {
    let query = format!("rel r\nassume irreflexive {}\nclaim irreflexive r\n", vec!["r"; 29].join("|"));
    let (m, n) = (13, 13 + 128);
    let bits: [&[(usize, u8)]; 6] = [
        &[],
        // M from 0 reaches 31; (31, 31) in N; (31, 30) in N and a turn from 31 to 30.
        &[(m, 0x80)],
        &[(n + 4 * 31, 0x80)],
        &[(n + 4 * 31, 0x40), (m + 4 * 31, 0x40)],
        &[(n + 4 * 31, 0x40)],
        &[(n + 4 * 30, 0x80), (m + 4 * 30, 0x80)],
    ];
    let made = |changes: &&[(usize, u8)]| {
        let mut standing = ring_standing(0, 0, 1);
        changes.iter().for_each(|&(at, value)| standing[at] = value);
        extended(&query, &standing)
    };
    bits.iter().map(made).collect()
}

/// Values too large and the flag, in the first standing.
fn standing_fields() -> Vec<Case> {
    // PATH has 2 left and 4 right occurrences, RING 2 left and 3 right.
    let (rows_m, rows_n) = (17, 17 + 128);
    vec![
        with(PATH, &[(14, 4)]),
        with(PATH, &[(7, 128)]),
        with(PATH, &[(22, 16)]),
        with(PATH, &[(15, 128)]),
        with(RING, &[(7, 2)]),
        with(RING, &[(7, 255)]),
        with(RING, &[(8, 2)]),
        with(RING, &[(16, 4)]),
        with(RING, &[(9, 128)]),
        // Bit 0 in a row of M, a bit or a row that the right side lacks.
        with(RING, &[(rows_m + 3, 1)]),
        with(RING, &[(rows_m + 4 + 3, 1)]),
        with(RING, &[(rows_m + 3, 16)]),
        with(RING, &[(rows_m, 128)]),
        with(RING, &[(rows_m + 4 * 4 + 3, 2)]),
        with(RING, &[(rows_m + 4 * 31 + 3, 2)]),
        // Anything in row 0 of N, a bit or a row that the right side lacks.
        with(RING, &[(rows_n + 3, 1)]),
        with(RING, &[(rows_n + 3, 2)]),
        with(RING, &[(rows_n + 4 + 3, 16)]),
        with(RING, &[(rows_n + 4, 128)]),
        with(RING, &[(rows_n + 4 * 4 + 3, 1)]),
        with(RING, &[(rows_n + 4 * 31 + 3, 2)]),
    ]
}

/// Standings repeated, left out, moved, added.
fn listed_standings() -> Vec<Case> {
    let (path, ring) = (written(PATH), written(RING));
    let parts = |sheet: &[u8], size: usize| (sheet[4..4 + size].to_vec(), sheet[4 + size..].to_vec());
    let (path_one, path_two) = parts(&path, 19);
    let (ring_one, ring_two) = parts(&ring, 269);
    let proved = vec![1, 0, 1, 1];
    let listing = |query: &str, fields: &[&Vec<u8>]| {
        let mut sheet = proved.clone();
        fields.iter().for_each(|field| sheet.extend(*field));
        (query.into(), sheet)
    };
    vec![
        listing(PATH, &[&path_one, &path_two, &path_one]),
        listing(RING, &[&ring_one, &ring_two, &ring_two]),
        // Another order passes; a level-1 standing or a step left out does not.
        listing(PATH, &[&path_two, &path_one]),
        listing(RING, &[&ring_two, &ring_one]),
        listing(PATH, &[&path_two]),
        listing(RING, &[&ring_two]),
        listing(PATH, &[&path_one]),
        listing(RING, &[&ring_one]),
        listing(PATH, &[]),
        // One more that no prefix has: harmless, with a step, completing a word.
        extended(PATH, &path_standing(0, 0)),
        extended(PATH, &path_standing(0, 15)),
        extended(PATH, &path_standing(1, 0)),
        extended(PATH, &path_standing(2, 0)),
        extended(PATH, &path_standing(2, 15)),
        extended(RING, &ring_standing(0, 0, 0)),
        extended(RING, &ring_standing(0, 1, 2)),
        extended(RING, &ring_standing(0, 0, 1)),
        extended(RING, &ring_standing(0, 0, 2)),
        // A first atom under a `never` completes nothing, but its steps count.
        extended(RING, &ring_standing(1, 0, 2)),
        extended(RING, &ring_standing(1, 0, 1)),
        // A word of length 0 refutes; all the rest would pass.
        listing(LENGTH_ZERO[0], &[&path_standing(1, 3)]),
        listing(LENGTH_ZERO[1], &[&{
            let once = written("rel r\nassume irreflexive r\nclaim irreflexive r\n");
            once[4..].to_vec()
        }]),
    ]
}

fn words() -> Vec<Case> {
    let mut cases = vec![
        // Refuting, shortest or not.
        word(PATH_REFUTED, &[0, 0, 0]),
        word(PATH_REFUTED, &[0, 0, 0, 0, 0, 0, 0]),
        word(RING_REFUTED, &[1, 0, 1]),
        word(RING_REFUTED, &[1, 0, 0, 0, 1]),
        word(LENGTH_ZERO[1], &[0]),
        // Even length, an atom or a relation too large.
        word(PATH_REFUTED, &[]),
        word(PATH_REFUTED, &[0, 0]),
        word(PATH_REFUTED, &[2, 0, 0]),
        word(RING_REFUTED, &[0, 0, 4]),
        word(PATH_REFUTED, &[0, 1, 0]),
        word(RING_REFUTED, &[0, 2, 0]),
        // A removed atom, no left word, a right word.
        word(PATH_REFUTED, &[0, 0, 1]),
        word(RING_REFUTED, &[2, 0, 2]),
        word(PATH_REFUTED, &[0]),
        word(PATH_REFUTED, &[0, 0, 0, 0, 0, 0, 0, 0, 0]),
        word(PATH_REFUTED, &[0, 0, 0, 0, 0]),
        word(RING_REFUTED, &[0, 1, 0, 0, 0]),
        word(PATH, &[0, 0, 0]),
        // A ring with unequal ends, a covered ring.
        word(RING_REFUTED, &[0, 0, 1]),
        word(RING_REFUTED, &[1, 1, 1]),
        word(RING, &[0, 0, 0, 0, 0]),
    ];
    // A field or a cut one after the word.
    for more in [&[0][..], &[2, 0], &[2, 0, 1, 0], &[3, 0, 0]] {
        cases.push(extended(PATH_REFUTED, more));
        cases.push(extended(RING_REFUTED, more));
    }
    cases
}

/// Graphs for one query, for each cause of refusal 12, each broken line and claim.
pub fn graphs() -> Vec<Case> {
    let query = "test T\nrel r\nrel s\nnever T\nwithin r [true] [!T]\nclosed s\nassume empty r;s\nassume irreflexive r\nclaim empty s\n";
    let event = [1, 0, 1, 0];
    let two = [event, event].concat();
    let edge = |relation: u8, from: u8, to: u8| vec![2, 0, 3, relation, from, to];
    let fields = |parts: &[&[u8]]| (query.as_bytes().to_vec(), parts.concat());
    let mut cases = vec![
        fields(&[]),
        fields(&[&two]),
        // Broken lines: never, within with it, closed, empty, irreflexive; the claim.
        fields(&[&[1, 0, 1, 1]]),
        fields(&[&event, &[1, 0, 1, 1], &edge(0, 0, 1)]),
        fields(&[&two, &event, &edge(1, 0, 1), &edge(1, 1, 2)]),
        fields(&[&two, &event, &edge(0, 0, 1), &edge(1, 1, 2)]),
        fields(&[&two, &edge(0, 1, 1)]),
        fields(&[&two, &edge(1, 1, 0)]),
        fields(&[&two, &edge(1, 1, 1), &edge(1, 0, 1)]),
        // Tag, tag 1 after 2, lengths.
        fields(&[&two, &[0, 0, 1, 0]]),
        fields(&[&two, &[3, 0, 3, 0, 0, 0]]),
        fields(&[&two, &edge(0, 0, 1), &event]),
        fields(&[&[1, 0, 0]]),
        fields(&[&[1, 0, 2, 0, 0]]),
        fields(&[&[1, 1, 0, 0]]),
        fields(&[&two, &[2, 0, 2, 0, 0]]),
        fields(&[&two, &[2, 0, 4, 0, 0, 0, 0]]),
        // Numbers too large: atom, relation, from, to, no events at all.
        fields(&[&event, &[1, 0, 1, 2]]),
        fields(&[&two, &edge(2, 0, 0)]),
        fields(&[&two, &edge(0, 2, 0)]),
        fields(&[&two, &edge(0, 0, 2)]),
        fields(&[&edge(0, 0, 0)]),
        // An edge repeated; the same pair in another relation is none.
        fields(&[&two, &edge(0, 0, 1), &edge(1, 0, 1), &edge(0, 0, 1)]),
        fields(&[&two, &edge(0, 0, 1), &edge(1, 0, 1)]),
    ];
    let whole = [&two[..], &edge(0, 0, 1)].concat();
    for length in 1..whole.len() {
        cases.push(fields(&[&whole[..length]]));
    }
    cases
}

/// 64 events and 65.
pub fn many_events() -> Vec<Case> {
    let query = b"rel r\nclaim empty r\n".to_vec();
    [64, 65].map(|count| (query.clone(), [1, 0, 1, 0].repeat(count))).to_vec()
}
