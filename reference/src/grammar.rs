//! The grammar of one line. Union, sequence, postfix and factor call each
//! other; each round bracket uses one of 32 levels, shared by E and T.
//! The first token with which no line goes on gives 3, a 33rd open bracket 4.

use crate::bytes::RawLine;
use crate::tokens::{is_reserved, Token, Tokens};
use crate::tree::{Claim, Expr, Line, Postfix, Test};

pub const DEEPEST: usize = 32;

/// What a name must be where it stands.
#[derive(Clone, Copy, Debug, PartialEq, Eq)]
pub enum Wanted {
    Test,
    Relation,
    RelationOrLet,
}

/// A line in the notation, with its names used from left to right.
#[derive(Debug, PartialEq, Eq)]
pub struct Parsed {
    pub line: Line,
    pub uses: Vec<(String, Wanted)>,
}

/// The number of the refusal, 3 or 4.
pub type Fault = u8;

const NOT_IN_NOTATION: Fault = 3;
const TOO_DEEP: Fault = 4;

pub fn parse_line(line: RawLine<'_>) -> Result<Parsed, Fault> {
    let mut parser = Parser { tokens: Tokens::new(line), open: 0, uses: Vec::new() };
    let line = parser.line()?;
    if *parser.tokens.current() != Token::End {
        return Err(NOT_IN_NOTATION);
    }
    Ok(Parsed { line, uses: parser.uses })
}

struct Parser<'a> {
    tokens: Tokens<'a>,
    /// Round brackets open at this place.
    open: usize,
    uses: Vec<(String, Wanted)>,
}

impl Parser<'_> {
    fn line(&mut self) -> Result<Line, Fault> {
        match self.word()?.as_str() {
            "test" => Ok(Line::Test(self.word()?)),
            "rel" => Ok(Line::Relation(self.word()?)),
            "let" => {
                let name = self.word()?;
                self.sign(b'=')?;
                Ok(Line::Let(name, self.union()?))
            }
            "never" => Ok(Line::Never(self.disjunction()?)),
            "within" => {
                let name = self.name(Wanted::Relation)?;
                let from = self.bracketed_test()?;
                let to = self.bracketed_test()?;
                Ok(Line::Within(name, from, to))
            }
            "closed" => Ok(Line::Closed(self.name(Wanted::Relation)?)),
            "assume" => match self.word()?.as_str() {
                "empty" => Ok(Line::AssumeEmpty(self.union()?)),
                "irreflexive" => Ok(Line::AssumeIrreflexive(self.union()?)),
                _ => Err(NOT_IN_NOTATION),
            },
            "claim" => match self.word()?.as_str() {
                "include" => {
                    let left = self.union()?;
                    if self.word()? != "in" {
                        return Err(NOT_IN_NOTATION);
                    }
                    Ok(Line::Claim(Claim::Include(left, self.union()?)))
                }
                "empty" => Ok(Line::Claim(Claim::Empty(self.union()?))),
                "irreflexive" => Ok(Line::Claim(Claim::Irreflexive(self.union()?))),
                _ => Err(NOT_IN_NOTATION),
            },
            _ => Err(NOT_IN_NOTATION),
        }
    }

    // Tokens.

    /// Any word, reserved or not.
    fn word(&mut self) -> Result<String, Fault> {
        match self.tokens.current() {
            Token::Word(word) => {
                let word = word.clone();
                self.tokens.advance();
                Ok(word)
            }
            _ => Err(NOT_IN_NOTATION),
        }
    }

    /// A word that is not reserved, used as a name.
    fn name(&mut self, wanted: Wanted) -> Result<String, Fault> {
        let word = self.word()?;
        if is_reserved(&word) {
            return Err(NOT_IN_NOTATION);
        }
        self.uses.push((word.clone(), wanted));
        Ok(word)
    }

    fn at(&self, sign: u8) -> bool {
        *self.tokens.current() == Token::Sign(sign)
    }

    fn sign(&mut self, sign: u8) -> Result<(), Fault> {
        if !self.at(sign) {
            return Err(NOT_IN_NOTATION);
        }
        self.tokens.advance();
        Ok(())
    }

    /// `(` is the current token and may stand here.
    fn open_bracket(&mut self) -> Result<(), Fault> {
        if self.open == DEEPEST {
            return Err(TOO_DEEP);
        }
        self.open += 1;
        self.tokens.advance();
        Ok(())
    }

    fn close_bracket(&mut self) -> Result<(), Fault> {
        self.sign(b')')?;
        self.open -= 1;
        Ok(())
    }

    // Expressions.

    fn union(&mut self) -> Result<Expr, Fault> {
        let mut members = vec![self.sequence()?];
        while self.at(b'|') {
            self.tokens.advance();
            members.push(self.sequence()?);
        }
        Ok(one_or(members, Expr::Union))
    }

    fn sequence(&mut self) -> Result<Expr, Fault> {
        let mut members = vec![self.postfixed()?];
        while self.at(b';') {
            self.tokens.advance();
            members.push(self.postfixed()?);
        }
        Ok(one_or(members, Expr::Sequence))
    }

    fn postfixed(&mut self) -> Result<Expr, Fault> {
        let factor = self.factor()?;
        let mut postfixes = Vec::new();
        loop {
            match self.tokens.current() {
                Token::Sign(b'*') => postfixes.push(Postfix::Star),
                Token::Sign(b'+') => postfixes.push(Postfix::Plus),
                Token::Sign(b'?') => postfixes.push(Postfix::Optional),
                _ => break,
            }
            self.tokens.advance();
        }
        Ok(if postfixes.is_empty() { factor } else { Expr::Postfixed(Box::new(factor), postfixes) })
    }

    fn factor(&mut self) -> Result<Expr, Fault> {
        if self.at(b'(') {
            self.open_bracket()?;
            let inside = self.union()?;
            self.close_bracket()?;
            Ok(inside)
        } else if self.at(b'[') {
            Ok(Expr::Test(self.bracketed_test()?))
        } else {
            Ok(Expr::Name(self.name(Wanted::RelationOrLet)?))
        }
    }

    // Tests.

    fn bracketed_test(&mut self) -> Result<Test, Fault> {
        self.sign(b'[')?;
        let test = self.disjunction()?;
        self.sign(b']')?;
        Ok(test)
    }

    fn disjunction(&mut self) -> Result<Test, Fault> {
        let mut members = vec![self.conjunction()?];
        while self.at(b'|') {
            self.tokens.advance();
            members.push(self.conjunction()?);
        }
        Ok(one_or(members, Test::Or))
    }

    fn conjunction(&mut self) -> Result<Test, Fault> {
        let mut members = vec![self.negation()?];
        while self.at(b'&') {
            self.tokens.advance();
            members.push(self.negation()?);
        }
        Ok(one_or(members, Test::And))
    }

    fn negation(&mut self) -> Result<Test, Fault> {
        let mut odd = false;
        while self.at(b'!') {
            odd = !odd;
            self.tokens.advance();
        }
        let inside = self.test_factor()?;
        Ok(if odd { Test::Not(Box::new(inside)) } else { inside })
    }

    fn test_factor(&mut self) -> Result<Test, Fault> {
        if self.at(b'(') {
            self.open_bracket()?;
            let inside = self.disjunction()?;
            self.close_bracket()?;
            return Ok(inside);
        }
        let constant = match self.tokens.current() {
            Token::Word(word) if word == "true" => Some(Test::True),
            Token::Word(word) if word == "false" => Some(Test::False),
            _ => None,
        };
        match constant {
            Some(test) => {
                self.tokens.advance();
                Ok(test)
            }
            None => Ok(Test::Name(self.name(Wanted::Test)?)),
        }
    }
}

/// A single member stands for itself.
fn one_or<E>(mut members: Vec<E>, join: fn(Vec<E>) -> E) -> E {
    if members.len() == 1 {
        members.remove(0)
    } else {
        join(members)
    }
}
