//! A second implementation of the checker of fence claims over guarded
//! words, written from the paper alone and for clarity. The modules follow
//! the paper's order.

pub mod refusal;

// The query.
pub mod bytes;
pub mod tokens;
pub mod tree;
pub mod grammar;
pub mod reading;
pub mod counting;

// Words.
pub mod sides;
pub mod automaton;

// Standings and search.
pub mod standing;
pub mod path;
pub mod ring;
pub mod search;

// Sheet and graph bytes.
pub mod sheet;
pub mod fields;
pub mod sheet_check;
pub mod graph;
pub mod judge;
pub mod draw;
pub mod dot;

// The calls.
pub mod calls;

// Cases.
pub mod generate;
pub mod escape;
pub mod circle;
pub mod vectors;
