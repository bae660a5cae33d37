//! The command line: one call per run, each printing its answer and nothing else.

use std::io::{self, Read, Write};
use std::process::ExitCode;

use fence_reference::circle::circle_lines;
use fence_reference::refusal::Refusal;
use fence_reference::{calls, vectors};

const USAGE: &str = "usage: fence-reference [query [--allowance N] [FILE]]
       fence-reference sheet [--allowance N] QUERY | check QUERY SHEET
       fence-reference draw [--dot] QUERY SHEET | judge QUERY GRAPH | read
       fence-reference generate KIND SEED COUNT | answer KIND
FILE, QUERY, SHEET and GRAPH are names of files, - is standard input";

const DEFAULT_ALLOWANCE: usize = 200;

/// What to print: bytes for standard output, or a message for standard error.
type Printed = Result<Vec<u8>, String>;

fn main() -> ExitCode {
    let arguments: Vec<String> = std::env::args_os().skip(1).map(|a| a.to_string_lossy().into_owned()).collect();
    let arguments: Vec<&str> = arguments.iter().map(String::as_str).collect();
    let status = match run(&arguments) {
        Some(Ok(bytes)) => match io::stdout().write_all(&bytes) {
            Ok(()) if matches!(arguments.first(), Some(&("generate" | "answer"))) => 0,
            Ok(()) => status_of(&bytes),
            Err(_) => 2,
        },
        Some(Err(message)) => {
            eprintln!("{message}");
            2
        }
        None => {
            eprintln!("{USAGE}");
            2
        }
    };
    ExitCode::from(status)
}

/// 1 for a refuted claim, 2 for a refusal, 0 for all else.
fn status_of(printed: &[u8]) -> u8 {
    if printed.starts_with(b"refuted ") {
        1
    } else if printed.starts_with(b"refusal ") {
        2
    } else {
        0
    }
}

fn run(arguments: &[&str]) -> Option<Printed> {
    Some(match arguments {
        [] => file("-").map(|query| line(calls::query_line(&query, DEFAULT_ALLOWANCE))),
        ["query", rest @ ..] => {
            let (allowance, files) = with_allowance(rest)?;
            let name = match files[..] {
                [] => "-",
                [name] => name,
                _ => return None,
            };
            file(name).map(|query| line(calls::query_line(&query, allowance)))
        }
        ["sheet", rest @ ..] => {
            let (allowance, files) = with_allowance(rest)?;
            let [name] = files[..] else { return None };
            file(name).map(|query| calls::sheet_bytes(&query, allowance).unwrap_or_else(|refused| line(refused.to_string())))
        }
        ["check", query, sheet] => both(query, sheet).map(|(query, sheet)| line(calls::check_line(&query, &sheet))),
        ["judge", query, graph] => both(query, graph).map(|(query, graph)| line(calls::judge_line(&query, &graph))),
        ["draw", query, sheet] => both(query, sheet).and_then(|(query, sheet)| drawn(calls::drawn_bytes(&query, &sheet))),
        ["draw", "--dot", query, sheet] => both(query, sheet).and_then(|(query, sheet)| drawn(calls::drawn_dot(&query, &sheet))),
        ["read"] => file("-").map(|query| line(calls::read_line(&query))),
        ["generate", kind, seed, count] => {
            let made = vectors::inputs(kind, seed.parse().ok()?, number(count)?);
            made.map(joined).ok_or(format!("{kind} is no kind of case"))
        }
        ["answer", "circle"] => file("-").and_then(|cases| circle(&cases)),
        ["answer", kind] => file("-").and_then(|cases| answers(kind, &cases)),
        _ => return None,
    })
}

/// The allowance among the arguments, and the others.
fn with_allowance<'a>(arguments: &[&'a str]) -> Option<(usize, Vec<&'a str>)> {
    let mut allowance = DEFAULT_ALLOWANCE;
    let mut files = Vec::new();
    let mut rest = arguments.iter();
    while let Some(&argument) = rest.next() {
        if argument == "--allowance" {
            allowance = number(rest.next()?)?;
        } else if argument.starts_with("--") {
            return None;
        } else {
            files.push(argument);
        }
    }
    Some((allowance, files))
}

fn drawn(answer: Result<Option<Vec<u8>>, Refusal>) -> Printed {
    match answer {
        Ok(Some(bytes)) => Ok(bytes),
        Ok(None) => Err("no graph: the sheet says proved or its word has more than 64 events".to_string()),
        Err(refused) => Ok(line(refused.to_string())),
    }
}

/// The answer to each case on standard input.
fn answers(kind: &str, cases: &[u8]) -> Printed {
    let text = std::str::from_utf8(cases).map_err(|error| error.to_string())?;
    let answer = |(index, case)| vectors::output(kind, case).ok_or(format!("line {} is no {kind} case", index + 1));
    text.lines().enumerate().map(answer).collect::<Result<Vec<_>, _>>().map(joined)
}

/// What the circle gives for the cases of `query` on standard input.
fn circle(cases: &[u8]) -> Printed {
    let text = std::str::from_utf8(cases).map_err(|error| error.to_string())?;
    let cases: Option<Vec<_>> = text.lines().map(vectors::asked).collect();
    let cases = cases.ok_or("a line is no query case")?;
    Ok(joined(circle_lines(cases.iter().map(|(allowance, query)| (*allowance, &query[..])))))
}

fn joined(lines: Vec<String>) -> Vec<u8> {
    lines.into_iter().flat_map(line).collect()
}

fn line(text: String) -> Vec<u8> {
    (text + "\n").into_bytes()
}

fn number(text: &str) -> Option<usize> {
    text.parse().ok()
}

/// The bytes of a file, or of standard input for `-`.
fn file(name: &str) -> Printed {
    if name != "-" {
        return std::fs::read(name).map_err(|error| format!("{name}: {error}"));
    }
    let mut bytes = Vec::new();
    io::stdin().read_to_end(&mut bytes).map_err(|error| error.to_string())?;
    Ok(bytes)
}

fn both(one: &str, two: &str) -> Result<(Vec<u8>, Vec<u8>), String> {
    Ok((file(one)?, file(two)?))
}
