//! The bytes of a query: its size, the bytes it may hold, and its lines.
//! Refusals 1 and 2 are found here, before any line is looked at.

use crate::refusal::{refusal, Refusal};

pub const MOST_BYTES: usize = 4096;

/// One line without its byte 10, and whether it had one.
#[derive(Clone, Copy, Debug, PartialEq, Eq)]
pub struct RawLine<'a> {
    pub bytes: &'a [u8],
    pub ended: bool,
}

/// Refusal 1 for the size, then refusal 2 for the first byte not allowed.
pub fn check_bytes(query: &[u8]) -> Result<(), Refusal> {
    if query.len() > MOST_BYTES {
        return Err(refusal(1, 0));
    }
    let mut line = 1;
    for &byte in query {
        match byte {
            b'\n' => line += 1,
            32..=126 => {}
            _ => return Err(refusal(2, line)),
        }
    }
    Ok(())
}

/// The lines from the top. Bytes after the last byte 10 are a line too.
pub fn lines(query: &[u8]) -> Vec<RawLine<'_>> {
    let mut found = Vec::new();
    let mut start = 0;
    for (at, &byte) in query.iter().enumerate() {
        if byte == b'\n' {
            found.push(RawLine { bytes: &query[start..at], ended: true });
            start = at + 1;
        }
    }
    if start < query.len() {
        found.push(RawLine { bytes: &query[start..], ended: false });
    }
    found
}
