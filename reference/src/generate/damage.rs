//! Damaged queries: one way for each refusal from 1 to 8, and edits of
//! single bytes that may give any of them or none.

use super::queries::{query, SMALL};
use super::rng::Rng;
use crate::reading::read_query;
use crate::tokens::RESERVED;

/// A query refused with this number, made from a random small one.
pub fn refused(rng: &mut Rng, number: u8) -> Vec<u8> {
    loop {
        let good = query(rng, SMALL);
        let bad = broken(rng, &good, number);
        if read_query(&bad).is_err_and(|refused| refused.number == number) {
            return bad;
        }
    }
}

fn lines(text: &[u8]) -> Vec<String> {
    String::from_utf8_lossy(text).split_inclusive('\n').map(str::to_string).collect()
}

fn broken(rng: &mut Rng, good: &[u8], number: u8) -> Vec<u8> {
    let mut lines = lines(good);
    let at = rng.below(lines.len());
    let last = lines.len() - 1;
    match number {
        1 => {
            lines[at] = format!("{}{}", " ".repeat(4097), lines[at]);
        }
        2 => return with_bad_byte(rng, good),
        3 => not_in_notation(rng, &mut lines, at),
        4 => {
            let open = "(".repeat(rng.between(33, 40));
            let fresh = format!("{} {open}", rng.pick(&["claim empty", "never", "let zz =", "assume irreflexive"]));
            match rng.below(3) {
                0 => lines[at] = format!("{fresh}\n"),
                1 => lines[last] = lines[last].replacen("claim include", &format!("claim include {open}"), 1)
                    .replacen("claim empty", &format!("claim empty {open}"), 1)
                    .replacen("claim irreflexive", &format!("claim irreflexive{open}"), 1),
                _ => lines.insert(at, format!("{fresh}true{}\n", ")".repeat(33))),
            }
        }
        5 => wrong_name(rng, &mut lines, at),
        6 => {
            let (word, count, rest) = *rng.pick(&[("test", 7, ""), ("rel", 17, ""), ("let", 33, "=[true]")]);
            for number in 0..count {
                let at = rng.below(lines.len());
                lines.insert(at, format!("{word} zz{number}{rest}\n"));
            }
        }
        7 => match rng.below(4) {
            0 => {
                lines.pop();
            }
            1 => lines.push(rng.pick(&["\n", " ", "rel zz\n", "#\n", "claim empty [true]\n", "((("]).to_string()),
            2 => {
                let claim = lines[last].clone();
                lines.insert(at, claim);
            }
            _ => {
                let keep = rng.below(lines.len());
                lines.truncate(keep);
            }
        },
        _ => too_large(rng, &mut lines),
    }
    lines.concat().into_bytes()
}

fn with_bad_byte(rng: &mut Rng, good: &[u8]) -> Vec<u8> {
    let mut bytes = good.to_vec();
    let bad = *rng.pick(&[0, 9, 13, 31, 127, 128, 0xc3, 255]);
    if rng.chance(50) {
        bytes.insert(rng.below(good.len() + 1), bad);
    } else {
        bytes[rng.below(good.len())] = bad;
    }
    bytes
}

fn not_in_notation(rng: &mut Rng, lines: &mut Vec<String>, at: usize) {
    let end = lines.len() - 1;
    match rng.below(6) {
        0 => lines.insert(at, rng.pick(&["\n", "   \n", "rel\n", "test R R\n", "foo\n", "Rel r\n", "relr\n"]).to_string()),
        1 => {
            lines[end].pop();
        }
        2 => {
            let extra = *rng.pick(&["#", "_", "1", ")", "]", "in", "=", "&", "claim", "true", "abcdefghijklmnopq", ";", "|", "?"]);
            lines[at] = format!("{} {extra}\n", lines[at].trim_end());
        }
        3 => {
            let signs: Vec<usize> = lines[at].char_indices().filter(|(_, c)| "|;[]()&!=".contains(*c)).map(|(i, _)| i).collect();
            if !signs.is_empty() {
                let place = *rng.pick(&signs);
                lines[at].remove(place);
            }
        }
        4 => {
            let spaces: Vec<usize> = lines[at].char_indices().filter(|(_, c)| *c == ' ').map(|(i, _)| i).collect();
            if !spaces.is_empty() {
                let place = *rng.pick(&spaces);
                lines[at].remove(place);
            }
        }
        _ => {
            let word = *rng.pick(&RESERVED);
            lines.insert(at, format!("{} {word}\n", rng.pick(&["closed", "never", "let x =", "claim empty", "rel r"])));
        }
    }
}

fn wrong_name(rng: &mut Rng, lines: &mut Vec<String>, at: usize) {
    let end = lines.len() - 1;
    match rng.below(5) {
        0 => {
            let word = *rng.pick(&RESERVED);
            lines.insert(at, format!("{} {word}{}\n", rng.pick(&["test", "rel"]), ""));
        }
        1 => {
            let word = *rng.pick(&RESERVED);
            lines.insert(at, format!("let {word} = [true]\n"));
        }
        2 => {
            let twice = lines[at].clone();
            lines.insert(at, twice);
        }
        3 => {
            lines.remove(at.min(end.saturating_sub(1)));
        }
        _ => {
            let unknown = *rng.pick(&["closed zz", "never zz", "let zz = zz", "assume empty zz", "within zz [true] [true]"]);
            lines.insert(at, format!("{unknown}\n"));
        }
    }
}

fn too_large(rng: &mut Rng, lines: &mut Vec<String>) {
    let end = lines.len() - 1;
    lines.insert(0, "rel zz\n".to_string());
    let by = *rng.pick(&[";", "|"]);
    let long = |count: usize| vec!["zz"; count].join(by);
    match rng.below(4) {
        0 => lines[end + 1] = format!("claim empty {}\n", long(65)),
        1 => lines[end + 1] = format!("claim include zz in {}\n", long(63)),
        2 => lines.insert(end + 1, format!("assume empty {}\n", long(rng.between(30, 63)))),
        _ => {
            lines.insert(1, format!("let zy = {}\n", long(9)));
            lines[end + 2] = "claim empty zy;zy;zy;zy;zy;zy;zy;zz;zz\n".to_string();
        }
    }
}

/// One to three edits of bytes, lines or pieces.
pub fn edited(rng: &mut Rng, good: &[u8]) -> Vec<u8> {
    let mut bytes = good.to_vec();
    for _ in 0..rng.between(1, 3) {
        if bytes.is_empty() {
            return bytes;
        }
        let at = rng.below(bytes.len());
        match rng.below(8) {
            0 => {
                bytes.remove(at);
            }
            1 => bytes.insert(at, *rng.pick(b"()[]|;&!*+?= \nrRTt19#")),
            2 => bytes[at] = *rng.pick(b"()[]|;&!*+?= \nrRTt19#"),
            3 => bytes[at] = rng.byte(),
            4 => bytes.truncate(at),
            5 => {
                let other = rng.below(bytes.len());
                bytes.swap(at, other);
            }
            6 => {
                let end = rng.between(at, bytes.len() - 1);
                let piece = bytes[at..end.min(at + 12)].to_vec();
                let place = rng.below(bytes.len());
                bytes.splice(place..place, piece);
            }
            _ => {
                let mut lines = lines(&bytes);
                let other = rng.below(lines.len());
                let place = rng.below(lines.len());
                lines.swap(other, place);
                bytes = lines.concat().into_bytes();
            }
        }
    }
    bytes
}
