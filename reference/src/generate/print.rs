//! Printing trees as tokens, and tokens as lines with spaces placed in one of
//! several ways.

use super::rng::Rng;
use crate::tree::{Claim, Expr, Line, Postfix, Test};

/// Where spaces stand.
#[derive(Clone, Copy, PartialEq, Eq)]
pub enum Spacing {
    Tidy,
    Tight,
    Loose,
}

pub struct Printer<'a> {
    pub rng: &'a mut Rng,
    pub spacing: Spacing,
    /// The chance, in percent, of brackets that are not needed.
    pub brackets: usize,
}

impl Printer<'_> {
    pub fn line(&mut self, line: &Line) -> String {
        let mut tokens: Vec<String> = Vec::new();
        match line {
            Line::Test(name) => words(&mut tokens, &["test", name]),
            Line::Relation(name) => words(&mut tokens, &["rel", name]),
            Line::Let(name, expr) => {
                words(&mut tokens, &["let", name, "="]);
                self.union(expr, &mut tokens);
            }
            Line::Never(test) => {
                words(&mut tokens, &["never"]);
                self.disjunction(test, &mut tokens);
            }
            Line::Within(name, from, to) => {
                words(&mut tokens, &["within", name]);
                self.bracketed(from, &mut tokens);
                self.bracketed(to, &mut tokens);
            }
            Line::Closed(name) => words(&mut tokens, &["closed", name]),
            Line::AssumeEmpty(expr) => {
                words(&mut tokens, &["assume", "empty"]);
                self.union(expr, &mut tokens);
            }
            Line::AssumeIrreflexive(expr) => {
                words(&mut tokens, &["assume", "irreflexive"]);
                self.union(expr, &mut tokens);
            }
            Line::Claim(Claim::Include(left, right)) => {
                words(&mut tokens, &["claim", "include"]);
                self.union(left, &mut tokens);
                words(&mut tokens, &["in"]);
                self.union(right, &mut tokens);
            }
            Line::Claim(Claim::Empty(expr)) => {
                words(&mut tokens, &["claim", "empty"]);
                self.union(expr, &mut tokens);
            }
            Line::Claim(Claim::Irreflexive(expr)) => {
                words(&mut tokens, &["claim", "irreflexive"]);
                self.union(expr, &mut tokens);
            }
        }
        self.spaced(&tokens)
    }

    fn spaced(&mut self, tokens: &[String]) -> String {
        let mut text = String::new();
        if self.spacing == Spacing::Loose {
            text.push_str(&" ".repeat(self.rng.below(3)));
        }
        for (index, token) in tokens.iter().enumerate() {
            if index > 0 {
                let before = &tokens[index - 1];
                let apart = is_word(before) && is_word(token);
                let spaces = match self.spacing {
                    Spacing::Tight => usize::from(apart),
                    Spacing::Loose => self.rng.below(3).max(usize::from(apart)),
                    Spacing::Tidy => usize::from(apart || tidy_space(before, token)),
                };
                text.push_str(&" ".repeat(spaces));
            }
            text.push_str(token);
        }
        if self.spacing == Spacing::Loose {
            text.push_str(&" ".repeat(self.rng.below(3)));
        }
        text
    }

    fn wrapped(&mut self, needed: bool) -> bool {
        needed || self.rng.chance(self.brackets)
    }

    fn union(&mut self, expr: &Expr, out: &mut Vec<String>) {
        match expr {
            Expr::Union(members) => {
                for (index, member) in members.iter().enumerate() {
                    if index > 0 {
                        words(out, &["|"]);
                    }
                    self.sequence(member, out);
                }
            }
            other => self.sequence(other, out),
        }
    }

    fn sequence(&mut self, expr: &Expr, out: &mut Vec<String>) {
        match expr {
            Expr::Sequence(members) => {
                for (index, member) in members.iter().enumerate() {
                    if index > 0 {
                        words(out, &[";"]);
                    }
                    self.factor(member, out);
                }
            }
            other => self.factor(other, out),
        }
    }

    fn factor(&mut self, expr: &Expr, out: &mut Vec<String>) {
        match expr {
            Expr::Postfixed(inside, postfixes) => {
                if let Expr::Postfixed(_, _) = **inside {
                    self.bracket(inside, out);
                } else {
                    self.factor(inside, out);
                }
                for postfix in postfixes {
                    words(out, &[match postfix {
                        Postfix::Star => "*",
                        Postfix::Plus => "+",
                        Postfix::Optional => "?",
                    }]);
                }
            }
            Expr::Name(name) => {
                if self.wrapped(false) {
                    words(out, &["(", name, ")"]);
                } else {
                    words(out, &[name]);
                }
            }
            Expr::Test(test) => self.bracketed(test, out),
            Expr::Union(_) | Expr::Sequence(_) => self.bracket(expr, out),
        }
    }

    fn bracket(&mut self, expr: &Expr, out: &mut Vec<String>) {
        words(out, &["("]);
        self.union(expr, out);
        words(out, &[")"]);
    }

    fn bracketed(&mut self, test: &Test, out: &mut Vec<String>) {
        words(out, &["["]);
        self.disjunction(test, out);
        words(out, &["]"]);
    }

    fn disjunction(&mut self, test: &Test, out: &mut Vec<String>) {
        match test {
            Test::Or(members) => {
                for (index, member) in members.iter().enumerate() {
                    if index > 0 {
                        words(out, &["|"]);
                    }
                    self.conjunction(member, out);
                }
            }
            other => self.conjunction(other, out),
        }
    }

    fn conjunction(&mut self, test: &Test, out: &mut Vec<String>) {
        match test {
            Test::And(members) => {
                for (index, member) in members.iter().enumerate() {
                    if index > 0 {
                        words(out, &["&"]);
                    }
                    self.negation(member, out);
                }
            }
            other => self.negation(other, out),
        }
    }

    fn negation(&mut self, test: &Test, out: &mut Vec<String>) {
        match test {
            Test::Not(inside) => {
                words(out, &["!"]);
                self.negation(inside, out);
            }
            Test::Name(_) | Test::True | Test::False => {
                let word = match test {
                    Test::Name(name) => name.as_str(),
                    Test::True => "true",
                    _ => "false",
                };
                if self.wrapped(false) {
                    words(out, &["(", word, ")"]);
                } else {
                    words(out, &[word]);
                }
            }
            Test::And(_) | Test::Or(_) => {
                words(out, &["("]);
                self.disjunction(test, out);
                words(out, &[")"]);
            }
        }
    }
}

fn words(out: &mut Vec<String>, tokens: &[&str]) {
    out.extend(tokens.iter().map(|token| token.to_string()));
}

fn is_word(token: &str) -> bool {
    token.starts_with(|first: char| first.is_ascii_alphabetic())
}

fn tidy_space(before: &str, token: &str) -> bool {
    let spaced = ["|", "&", "="];
    spaced.contains(&before)
        || spaced.contains(&token)
        || is_word(before) && token == "["
        || before == "]" && (token == "[" || is_word(token))
        || is_word(token) && [")", "*", "+", "?"].contains(&before)
        || before == "include" || before == "empty" || before == "irreflexive" || before == "in"
}
