//! The trees of a query: tests T, expressions E, and the kinds of lines.
//! Names are kept as written; the query's table says what each one is.
//! Chains are vectors, so only brackets nest.

/// A test T.
#[derive(Clone, Debug, PartialEq, Eq)]
pub enum Test {
    Name(String),
    True,
    False,
    /// `!` written an odd number of times; an even number leaves no trace.
    Not(Box<Test>),
    And(Vec<Test>),
    Or(Vec<Test>),
}

#[derive(Clone, Copy, Debug, PartialEq, Eq)]
pub enum Postfix {
    Star,
    Plus,
    Optional,
}

/// An expression E. A union or sequence has at least two members.
#[derive(Clone, Debug, PartialEq, Eq)]
pub enum Expr {
    /// A relation or a let.
    Name(String),
    /// A bracketed test.
    Test(Test),
    Union(Vec<Expr>),
    Sequence(Vec<Expr>),
    /// At least one postfix, applied from the first to the last.
    Postfixed(Box<Expr>, Vec<Postfix>),
}

#[derive(Clone, Debug, PartialEq, Eq)]
pub enum Claim {
    Include(Expr, Expr),
    Empty(Expr),
    Irreflexive(Expr),
}

#[derive(Clone, Debug, PartialEq, Eq)]
pub enum Line {
    Test(String),
    Relation(String),
    Let(String, Expr),
    Never(Test),
    Within(String, Test, Test),
    Closed(String),
    AssumeEmpty(Expr),
    AssumeIrreflexive(Expr),
    Claim(Claim),
}
