//! Tokens of one line, cut one at a time from left to right, so that a fault
//! further right is never seen before one further left.

use crate::bytes::RawLine;

pub const LONGEST_NAME: usize = 16;

/// The line words, then the other words that are no names.
pub const RESERVED: [&str; 14] = [
    "test", "rel", "let", "never", "within", "closed", "assume", "claim", "in", "empty", "include",
    "irreflexive", "true", "false",
];

pub fn is_reserved(word: &str) -> bool {
    RESERVED.contains(&word)
}

#[derive(Clone, Debug, PartialEq, Eq)]
pub enum Token {
    /// A run of letters and digits that begins with a letter, at most 16 long.
    Word(String),
    /// One of the bytes `| ; * + ? [ ] ( ) & ! =`.
    Sign(u8),
    /// The byte 10 that ends the line.
    End,
    /// Anything else: a byte that begins no token, a longer run, a missing byte 10.
    Fault,
}

/// A place in a line, with the token that stands there.
pub struct Tokens<'a> {
    line: RawLine<'a>,
    next: usize,
    current: Token,
}

impl<'a> Tokens<'a> {
    pub fn new(line: RawLine<'a>) -> Self {
        let mut tokens = Tokens { line, next: 0, current: Token::Fault };
        tokens.advance();
        tokens
    }

    pub fn current(&self) -> &Token {
        &self.current
    }

    pub fn advance(&mut self) {
        let bytes = self.line.bytes;
        while self.next < bytes.len() && bytes[self.next] == b' ' {
            self.next += 1;
        }
        if self.next == bytes.len() {
            self.current = if self.line.ended { Token::End } else { Token::Fault };
            return;
        }
        let first = bytes[self.next];
        if first.is_ascii_alphabetic() {
            let start = self.next;
            while self.next < bytes.len() && bytes[self.next].is_ascii_alphanumeric() {
                self.next += 1;
            }
            let word = &bytes[start..self.next];
            self.current = if word.len() > LONGEST_NAME {
                Token::Fault
            } else {
                Token::Word(word.iter().map(|&byte| byte as char).collect())
            };
        } else {
            self.next += 1;
            self.current = match first {
                b'|' | b';' | b'*' | b'+' | b'?' | b'[' | b']' | b'(' | b')' | b'&' | b'!' | b'=' => {
                    Token::Sign(first)
                }
                _ => Token::Fault,
            };
        }
    }
}
