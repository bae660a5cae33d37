//! The command line: where the query comes from, and which allowance it gets.

use std::io::Write;
use std::process::{Command, Stdio};

/// Case C7: proved with 2 standings, so that an allowance of 1 is spent.
const C7: &str = "rel a\nrel b\nassume irreflexive a;b\nclaim irreflexive b;a\n";

/// What the program prints, and its exit status, for the query on standard input.
fn printed(arguments: &[&str], query: &str) -> (String, Option<i32>) {
    let mut child = Command::new(env!("CARGO_BIN_EXE_fence-reference"))
        .args(arguments)
        .stdin(Stdio::piped())
        .stdout(Stdio::piped())
        .stderr(Stdio::null())
        .spawn()
        .unwrap();
    child.stdin.take().unwrap().write_all(query.as_bytes()).unwrap();
    let output = child.wait_with_output().unwrap();
    (String::from_utf8(output.stdout).unwrap(), output.status.code())
}

#[test]
fn query_on_standard_input() {
    for arguments in [&[][..], &["query"], &["query", "-"], &["query", "--allowance", "2"], &["query", "--allowance", "2", "-"]] {
        assert_eq!(printed(arguments, C7), ("proved 2\n".to_string(), Some(0)), "{arguments:?}");
    }
}

#[test]
fn allowance_on_standard_input() {
    for arguments in [&["query", "--allowance", "1"][..], &["query", "--allowance", "1", "-"], &["query", "-", "--allowance", "1"]] {
        assert_eq!(printed(arguments, C7), ("refusal 10 line 0\n".to_string(), Some(2)), "{arguments:?}");
    }
    assert_eq!(printed(&["query", "--allowance", "0"], C7), ("refusal 9 line 0\n".to_string(), Some(2)));
}

#[test]
fn wrong_command_lines() {
    for arguments in [&["query", "--allowance"][..], &["query", "--allowance", "x"], &["query", "-", "-"], &["query", "--dot"]] {
        assert_eq!(printed(arguments, ""), (String::new(), Some(2)), "{arguments:?}");
    }
}
