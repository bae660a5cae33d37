//! Reading once more in another way: a stack of what must follow instead of
//! functions that call each other, and counting over tokens instead of trees.
//! Both must give the same line for every query.

use std::collections::HashMap;

use fence_reference::calls::read_line;
use fence_reference::generate::damage::{edited, refused};
use fence_reference::generate::limits::at_limits;
use fence_reference::generate::queries::{any_shape, query, SMALL};
use fence_reference::generate::rng::Rng;

/// What must follow; the first letter of a rule's name tells its level.
#[derive(Clone, Copy, PartialEq, Debug)]
enum Want {
    Sign(char),
    Word(&'static str),
    Declared,
    Relation,
    Union,
    UnionMore,
    Sequence,
    SequenceMore,
    Postfixes,
    Or,
    OrMore,
    And,
    AndMore,
    Not,
}

type Uses = Vec<(String, &'static str)>;

/// The next token and what is left after it; `None` for what is no token.
fn token(text: &str) -> (Option<String>, &str) {
    let text = text.trim_start_matches(' ');
    let run = text.find(|c: char| !c.is_ascii_alphanumeric()).unwrap_or(text.len());
    if text.starts_with(|c: char| c.is_ascii_alphabetic()) {
        let word = (run <= 16).then(|| text[..run].to_string());
        return (word, &text[run..]);
    }
    match text.chars().next() {
        Some(c) if "|;*+?[]()&!=\n".contains(c) => (Some(c.to_string()), &text[1..]),
        _ => (None, text),
    }
}

const RESERVED: &str = " test rel let never within closed assume claim in empty include irreflexive true false ";

fn reserved(word: &str) -> bool {
    RESERVED.contains(&format!(" {word} "))
}

fn is_word(text: &str) -> bool {
    text.starts_with(|c: char| c.is_ascii_alphabetic())
}

/// All tokens of a line in the notation with its names, or 3 or 4.
fn line_tokens(line: &str) -> Result<(Vec<String>, Uses), u8> {
    use Want::*;
    let (kind, mut rest) = token(line);
    let kind = kind.ok_or(3)?;
    let mut tokens = vec![kind.clone()];
    let mut stack = match kind.as_str() {
        "test" | "rel" => vec![Declared],
        "let" => vec![Union, Sign('='), Declared],
        "never" => vec![Or],
        "within" => vec![Sign(']'), Or, Sign('['), Sign(']'), Or, Sign('['), Relation],
        "closed" => vec![Relation],
        "assume" | "claim" => {
            let (second, after) = token(rest);
            let second = second.ok_or(3)?;
            rest = after;
            tokens.push(second.clone());
            match (kind.as_str(), second.as_str()) {
                (_, "empty" | "irreflexive") => vec![Union],
                ("claim", "include") => vec![Union, Word("in"), Union],
                _ => return Err(3),
            }
        }
        _ => return Err(3),
    };
    stack.insert(0, Sign('\n'));
    let mut uses = Uses::new();
    let mut open = 0;
    while let Some(want) = stack.pop() {
        let (next, after) = token(rest);
        let next = next.unwrap_or_else(|| "#".to_string());
        let mut name = |wanted| {
            let good = is_word(&next) && !reserved(&next);
            uses.push((next.clone(), wanted));
            if good { Ok(()) } else { Err(3) }
        };
        // What pushes without taking the token goes on; the rest takes it.
        match want {
            Union => {
                stack.extend([UnionMore, Sequence]);
                continue;
            }
            UnionMore if next == "|" => stack.extend([UnionMore, Sequence]),
            Sequence => {
                match next.as_str() {
                    "(" => stack.extend([SequenceMore, Postfixes, Sign(')'), Union]),
                    "[" => stack.extend([SequenceMore, Postfixes, Sign(']'), Or]),
                    _ => {
                        name("relation or let")?;
                        stack.extend([SequenceMore, Postfixes]);
                    }
                }
            }
            SequenceMore if next == ";" => stack.push(Sequence),
            Postfixes if ["*", "+", "?"].contains(&next.as_str()) => stack.push(Postfixes),
            Or => {
                stack.extend([OrMore, And]);
                continue;
            }
            OrMore if next == "|" => stack.extend([OrMore, And]),
            And => {
                stack.extend([AndMore, Not]);
                continue;
            }
            AndMore if next == "&" => stack.extend([AndMore, Not]),
            Not => match next.as_str() {
                "!" => stack.push(Not),
                "(" => stack.extend([Sign(')'), Or]),
                "true" | "false" => {}
                _ => name("test")?,
            },
            UnionMore | SequenceMore | Postfixes | OrMore | AndMore => continue,
            Sign(sign) if next == sign.to_string() => {}
            Word(word) if next == word => {}
            Declared if is_word(&next) => {}
            Relation => name("relation")?,
            Sign(_) | Word(_) | Declared => return Err(3),
        }
        if next == "(" {
            if open == 32 {
                return Err(4);
            }
            open += 1;
        }
        if next == ")" {
            open -= 1;
        }
        tokens.push(next);
        rest = after;
    }
    Ok((tokens, uses))
}

/// Occurrences and leaves of the expression in these tokens.
fn count(tokens: &[String], weights: &HashMap<String, (f64, f64)>) -> (f64, f64) {
    let mut sum = (0.0, 0.0);
    let mut inside_test = false;
    for token in tokens {
        match token.as_str() {
            "[" => {
                inside_test = true;
                sum.1 += 1.0;
            }
            "]" => inside_test = false,
            name if is_word(name) && !inside_test => {
                let weight = weights[name];
                sum = (sum.0 + weight.0, sum.1 + weight.1);
            }
            _ => {}
        }
    }
    sum
}

fn second_reading(bytes: &[u8]) -> String {
    let refused = |number: u8, place: usize| format!("refusal {number} line {place}");
    if bytes.len() > 4096 {
        return refused(1, 0);
    }
    if let Some(bad) = bytes.iter().position(|&byte| byte != 10 && !(32..127).contains(&byte)) {
        return refused(2, 1 + bytes[..bad].iter().filter(|&&byte| byte == 10).count());
    }
    let text = String::from_utf8_lossy(bytes);
    let mut kinds: HashMap<String, &str> = HashMap::new();
    let mut lines: Vec<Vec<String>> = Vec::new();
    for (index, line) in text.split_inclusive('\n').enumerate() {
        let place = index + 1;
        if lines.last().is_some_and(|tokens| tokens[0] == "claim") {
            return refused(7, place);
        }
        let (tokens, uses) = match line_tokens(line) {
            Ok(good) => good,
            Err(number) => return refused(number, place),
        };
        let declares = ["test", "rel", "let"].contains(&tokens[0].as_str());
        if declares && (reserved(&tokens[1]) || kinds.contains_key(&tokens[1])) {
            return refused(5, place);
        }
        for (name, wanted) in &uses {
            let kind = kinds.get(name).copied().unwrap_or("nothing");
            let fits = match *wanted {
                "test" => kind == "test",
                "relation" => kind == "rel",
                _ => kind == "rel" || kind == "let",
            };
            if !fits {
                return refused(5, place);
            }
        }
        if declares {
            let (kind, most) = match tokens[0].as_str() {
                "test" => ("test", 6),
                "rel" => ("rel", 16),
                _ => ("let", 32),
            };
            if kinds.values().filter(|&&other| other == kind).count() == most {
                return refused(6, place);
            }
            kinds.insert(tokens[1].clone(), kind);
        }
        lines.push(tokens);
    }
    let Some(claim) = lines.last().filter(|tokens| tokens[0] == "claim").cloned() else {
        return refused(7, 0);
    };
    sizes(&lines, &claim).unwrap_or_else(|| refused(8, lines.len()))
}

/// The accepted line, or nothing where a side is too large.
fn sizes(lines: &[Vec<String>], claim: &[String]) -> Option<String> {
    let mut weights: HashMap<String, (f64, f64)> = HashMap::new();
    for tokens in lines.iter().filter(|tokens| tokens[0] == "rel") {
        let limits = lines.iter().filter(|other| other[0] == "within" && other[1] == tokens[1]).count();
        weights.insert(tokens[1].clone(), (1.0, 1.0 + 2.0 * limits as f64));
    }
    for tokens in lines.iter().filter(|tokens| tokens[0] == "let") {
        let weight = count(&tokens[3..tokens.len() - 1], &weights);
        weights.insert(tokens[1].clone(), weight);
    }
    let assumed = |kind: &str| {
        lines.iter().filter(|tokens| tokens[0] == "assume" && tokens[1] == kind).fold((0.0, 0.0), |sum: (f64, f64), tokens| {
            let more = count(&tokens[2..], &weights);
            (sum.0 + more.0, sum.1 + more.1)
        })
    };
    let (a0, a1) = (assumed("empty"), assumed("irreflexive"));
    let ring = claim[1] == "irreflexive";
    let middle = claim.iter().position(|token| token == "in").unwrap_or(claim.len());
    let left = count(&claim[2..middle], &weights);
    let right = match claim[1].as_str() {
        "include" => {
            let y = count(&claim[middle + 1..], &weights);
            (y.0 + a0.0 + 2.0, y.1 + a0.1 + 3.0)
        }
        "empty" => (a0.0 + 2.0, 1.0 + a0.1 + 3.0),
        _ => (a1.0 + a0.0 + 2.0, a1.1 + a0.1 + 2.0),
    };
    let most = if ring { 31.0 } else { 64.0 };
    let fits = left.0 <= 64.0 && right.0 <= most && left.1 <= 512.0 && right.1 <= 512.0 && (ring || a1.1 <= 512.0);
    fits.then(|| format!("accepted {} {} {}", if ring { "ring" } else { "path" }, left.0, right.0))
}

fn agree(bytes: &[u8]) {
    assert_eq!(read_line(bytes), second_reading(bytes), "{}", String::from_utf8_lossy(bytes));
}

#[test]
fn readings_agree() {
    let mut rng = Rng::new(31);
    at_limits(&mut rng).iter().for_each(|bytes| agree(bytes));
    for _ in 0..12_000 {
        let shape = any_shape(&mut rng);
        agree(&query(&mut rng, shape));
        let good = query(&mut rng, SMALL);
        agree(&edited(&mut rng, &good));
        let number = rng.between(2, 8) as u8;
        let bad = refused(&mut rng, number);
        agree(&bad);
        agree(&edited(&mut rng, &bad));
    }
}

/// Short lines of random tokens reach corners that edits do not.
#[test]
fn readings_agree_on_random_tokens() {
    let mut rng = Rng::new(32);
    let tokens = [
        "test", "rel", "let", "never", "within", "closed", "assume", "claim", "empty", "irreflexive", "include", "in", "r",
        "s", "T", "x", "u", "[", "]", "(", ")", "|", ";", "*", "+", "?", "&", "!", "=", "true", "false", "\n", "#", "1",
        "[T]", "((((((((((((((((", "))))))))))))))))", "abcdefghijklmnop",
    ];
    let starts = ["never ", "let y = ", "assume empty ", "claim empty ", "claim include ", "within r ", "", "closed ", "claim irreflexive r|"];
    for _ in 0..150_000 {
        let mut text = "rel r\ntest T\nlet x = r\n".to_string();
        text += *rng.pick(&starts);
        for _ in 0..rng.below(9) {
            text += *rng.pick(&tokens);
            text += *rng.pick(&["", "", " "]);
        }
        if rng.chance(85) {
            text.push('\n');
        }
        agree(text.as_bytes());
    }
}
