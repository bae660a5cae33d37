//! Queries at each limit and one past it.

use super::rng::Rng;

fn times(text: &str, count: usize, by: &str) -> String {
    vec![text; count].join(by)
}

/// All of them, always in the same order; the seed varies joints and names.
pub fn at_limits(rng: &mut Rng) -> Vec<Vec<u8>> {
    let mut made = Vec::new();
    made.extend(declarations());
    made.extend(depths());
    made.extend(names());
    made.extend(occurrences(rng));
    made.extend(leaves());
    made.extend(bytes());
    made.extend(lets());
    made.into_iter().map(String::into_bytes).collect()
}

fn numbered(word: &str, count: usize, rest: &str) -> String {
    (0..count).map(|number| format!("{word} {}{number}{rest}\n", &word[..1])).collect()
}

fn declarations() -> Vec<String> {
    let mut made = Vec::new();
    for count in [5, 6, 7] {
        let tests = numbered("test", count, "");
        made.push(format!("{tests}claim include [t0] in [t{}]\n", count - 1));
        made.push(format!("{tests}rel z\nassume irreflexive z;[t0&!t4]\nclaim irreflexive z;[t4]\n"));
    }
    for count in [15, 16, 17] {
        let relations = numbered("rel", count, "");
        made.push(format!("{relations}claim include r0;r{} in r0+;r1?\n", count - 1));
        made.push(format!("{relations}assume irreflexive r{};r0\nclaim irreflexive r0;r{}\n", count - 1, count - 1));
    }
    for count in [31, 32, 33] {
        let lets = numbered("let", count, " = z");
        made.push(format!("rel z\n{lets}claim include l{} in l0\n", count - 1));
    }
    let all = numbered("test", 6, "") + &numbered("rel", 16, "") + &numbered("let", 32, " = r0|r15");
    made.push(format!("{all}claim include l31 in r15|r0\n"));
    made.push(format!("{all}test t6\n"));
    made.push(format!("{all}rel r15\n"));
    made.push(format!("{all}let l32 = u\n"));
    made
}

fn depths() -> Vec<String> {
    let mut made = Vec::new();
    for depth in [1, 31, 32, 33] {
        let (open, close) = ("(".repeat(depth), ")".repeat(depth));
        made.push(format!("rel r\nclaim include {open}r{close} in r\n"));
        made.push(format!("rel r\nclaim include r in r|{open}r{close}\n"));
        made.push(format!("rel r\nlet x = {open}r{}\nclaim irreflexive x\n", ")*".repeat(depth)));
        made.push(format!("test T\nnever {open}T{close}\nclaim empty [T]\n"));
        made.push(format!("test T\nclaim empty [{open}T{close}]\n"));
        made.push(format!("test T\nrel r\nwithin r [{open}T{close}] [T]\nclaim empty r;r\n"));
        made.push(format!("claim empty {open}"));
        made.push(format!("claim empty {open}\n"));
        made.push(format!("claim empty {open}#\n"));
        made.push(format!("rel r\nclaim empty {open}r(\n"));
        made.push(format!("claim empty {open}[(true)]{close}\n"));
        made.push(format!("claim empty {open}[true]{close}\n"));
        made.push(format!("claim empty {open}[true]{close})\n"));
    }
    for outer in [0, 1, 16, 31, 32] {
        for inner in [32 - outer, 33 - outer] {
            let (open, close) = ("(".repeat(outer), ")".repeat(outer));
            let test = format!("{}true{}", "(".repeat(inner), ")".repeat(inner));
            made.push(format!("claim irreflexive {open}[{test}]{close}\n"));
        }
    }
    made.push(format!("rel r\nclaim empty {}\n", times("(r)", 33, ";")));
    made.push(format!("rel r\nclaim empty {}\n", times("((r|r))", 32, "|")));
    made
}

fn names() -> Vec<String> {
    let mut made = Vec::new();
    for length in [1, 15, 16, 17, 18, 32] {
        let name = "Nabcdefghijklmnopqrstuvwxyz0123456789".chars().take(length).collect::<String>();
        made.push(format!("rel {name}\nclaim include {name} in {name}+\n"));
        made.push(format!("test {name}\nclaim empty [{name}]\n"));
        made.push(format!("let {name}=[true]\nclaim include {name}in {name}\n"));
    }
    made
}

fn occurrences(rng: &mut Rng) -> Vec<String> {
    let mut made = Vec::new();
    let joint = *rng.pick(&[";", "|"]);
    for count in [63, 64, 65] {
        for by in [";", "|"] {
            made.push(format!("rel r\nclaim empty {}\n", times("r", count, by)));
            made.push(format!("rel r\nclaim include {} in r*\n", times("r", count, by)));
            made.push(format!("rel r\nassume irreflexive r+\nclaim irreflexive {}\n", times("r", count, by)));
            made.push(format!("rel r\nassume irreflexive {}\nclaim empty r;r\n", times("r", count, by)));
        }
    }
    for count in [61, 62, 63, 64] {
        made.push(format!("rel r\nclaim include r;r in {}\n", times("r", count, joint)));
        made.push(format!("rel r\nclaim include r;r in ({})*\n", times("r", count, ";")));
        made.push(format!("rel r\nassume empty {}\nclaim empty r;r\n", times("r", count, joint)));
        let half = times("r", count / 2, "|");
        let rest = times("r", count - count / 2, ";");
        made.push(format!("rel r\nassume empty {rest}\nclaim include r in {half}\n"));
    }
    for count in [28, 29, 30, 31] {
        made.push(format!("rel r\nassume irreflexive {}\nclaim irreflexive r\n", times("r", count, joint)));
        made.push(format!("rel r\nassume irreflexive {}\nclaim irreflexive r;r\n", times("r", count, ";")));
        made.push(format!("rel r\nassume empty {}\nclaim irreflexive r\n", times("r", count, joint)));
        let half = times("r", count / 2, "|");
        let rest = times("r", count - count / 2, ";");
        made.push(format!("rel r\nassume empty {rest}\nassume irreflexive {half}\nclaim irreflexive r\n"));
        made.push(format!("rel r\nassume irreflexive ({})+;r\nclaim irreflexive r?\n", times("r", count - 1, "|")));
    }
    made
}

/// Both sides as wide as they may be, with standings that use the highest
/// numbers, and few of them.
pub fn wide_sides() -> Vec<Vec<u8>> {
    let mut made = Vec::new();
    let r = |count: usize, by: &str| times("r", count, by);
    for count in [63, 64] {
        made.push(format!("rel r\nclaim include {} in {}\n", r(count, "|"), r(count - 2, "|")));
        made.push(format!("rel r\nclaim include {} in {}\n", r(count, ";"), r(count - 2, "*;") + "*"));
        made.push(format!("rel r\nassume empty {}\nclaim include {} in r\n", r(count - 3, "|"), r(count, "|")));
        made.push(format!("rel r\nassume empty r;r\nclaim include ({})+ in {}\n", r(count, "|"), r(count - 4, "|")));
    }
    // 31 and 30 right occurrences in a ring, with steps at inside atoms.
    for count in [28, 29] {
        made.push(format!("rel r\nassume irreflexive ({})+\nclaim irreflexive r;r;r\n", r(count, "|")));
        made.push(format!("rel r\nassume irreflexive {}\nclaim irreflexive {}\n", r(count, ";"), r(count, ";")));
        made.push(format!("rel r\nassume irreflexive ({})+\nassume empty r;r\nclaim irreflexive r;r;r\n", r(count - 2, "|")));
        made.push(format!("rel r\nrel s\nassume irreflexive {}\nassume empty s;r\nclaim irreflexive r;s;r\n", r(count - 2, "|")));
        made.push(format!("rel r\nassume irreflexive {}\nclaim irreflexive r\n", r(count, ";")));
        made.push(format!("rel r\nassume empty {}\nclaim irreflexive r;r\n", r(count, ";")));
        made.push(format!("rel r\nassume empty {}\nclaim irreflexive r;r;r\n", r(count, "|")));
        made.push(format!("rel r\nrel s\nassume empty {};s\nclaim irreflexive s;r\n", r(count - 1, "?;") + "?"));
        made.push(format!("rel r\nrel s\nassume empty {}\nclaim irreflexive r;s;r;r\n", times("s", count, "|")));
        made.push(format!("rel r\nassume irreflexive r*;{}\nclaim irreflexive {}\n", r(count - 1, ";"), r(64, "|")));
    }
    made.into_iter().map(String::into_bytes).collect()
}

fn leaves() -> Vec<String> {
    let mut made = Vec::new();
    for past in [0, 1] {
        let tests = |count: usize| times("[true]", count + past, "|");
        made.push(format!("claim empty {}\n", tests(512)));
        made.push(format!("claim include [false] in {}\n", tests(509)));
        made.push(format!("assume empty {}\nclaim empty [true]\n", tests(508)));
        made.push(format!("assume empty {}\nclaim include [true] in [true]\n", tests(508)));
        made.push(format!("assume irreflexive {}\nclaim empty [true]\n", tests(512)));
        made.push(format!("assume irreflexive {}\nclaim irreflexive [true]\n", tests(510)));
        made.push(format!("assume irreflexive [true]\nassume empty {}\nclaim irreflexive [true]\n", tests(509)));
        // Limits put two leaves at each use, repeated lines too.
        let limits = "within r [true] [true]\n".repeat(4);
        made.push(format!("rel r\n{limits}claim empty {}\n", times("r", 56 + past, ";")));
        let limits = "within r [true] [true]\n".repeat(3);
        made.push(format!("rel r\nassume irreflexive {}\n{limits}claim empty [true];r\n", times("r", 73 + past, ";")));
        let names = times("x", 4, "|");
        let sum = times("[true]", 128, "|");
        let more = if past == 1 { "|[true]" } else { "" };
        made.push(format!("let x = {sum}\nclaim empty {names}{more}\n"));
    }
    made
}

/// A query of so many bytes.
fn padded(query: &str, size: usize) -> String {
    let end = query.len() - 1;
    format!("{}{}\n", &query[..end], " ".repeat(size - query.len()))
}

fn bytes() -> Vec<String> {
    let mut made = Vec::new();
    for size in [4095, 4096, 4097] {
        made.push(padded("rel r\nclaim empty r\n", size));
        made.push(format!("rel {}\n", "a".repeat(size - 5)));
    }
    made.push(" ".repeat(4096));
    made.push("\n".repeat(4096));
    made.push("\n".repeat(4097));
    made.push(format!("rel r\nclaim include r{} in r*\n", "+".repeat(4073)));
    made.push(format!("rel r\nclaim include r{} in r*\n", "+?*".repeat(1350)));
    made.push(format!("never {}true\nclaim empty [true]\n", "!".repeat(4001)));
    made.push(format!("rel r\nlet big = {}\nclaim empty r\n", times("r", 1990, ";")));
    made.push(format!("rel r\nlet big = {}\nclaim empty r\n", times("r", 1990, "|")));
    made
}

fn lets() -> Vec<String> {
    let mut made = Vec::new();
    for by in [";", "|"] {
        let mut text = "rel r\nlet x0 = r\n".to_string();
        for number in 1..32 {
            text += &format!("let x{number} = {}\n", times(&format!("x{}", number - 1), 24, by));
        }
        made.push(format!("{text}claim empty r\n"));
        made.push(format!("{text}claim empty x31\n"));
        made.push(format!("{text}claim empty x1\n"));
        made.push(format!("{text}claim include r in x31\n"));
        made.push(format!("{text}assume irreflexive x31\nclaim empty r\n"));
        made.push(format!("{text}assume empty x31\nclaim irreflexive r\n"));
        made.push(format!("{text}assume irreflexive x1\nclaim irreflexive r\n"));
    }
    // 2^6 is at the limit, 2^7 past it.
    let mut text = "rel r\nlet x0 = r\n".to_string();
    for number in 1..10 {
        text += &format!("let x{number} = x{};x{}\n", number - 1, number - 1);
    }
    for number in [4, 5, 6, 7, 9] {
        made.push(format!("{text}claim empty x{number}\n"));
        made.push(format!("{text}assume irreflexive x{number}\nclaim empty r\n"));
        made.push(format!("{text}assume irreflexive x{number}\nclaim irreflexive r\n"));
    }
    let mut deep = "rel r\nlet x0 = r\n".to_string();
    for number in 1..32 {
        deep += &format!("let x{number} = {}x{}{}\n", "(".repeat(32), number - 1, ")*".repeat(32));
    }
    made.push(format!("{deep}claim include x31 in r*\n"));
    made.push(format!("{deep}assume irreflexive x31;r\nclaim irreflexive r\n"));
    made
}
