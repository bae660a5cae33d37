//! What a standing must offer: the first step, further steps, completion of
//! a refuting word, and its bytes in a sheet.

use std::hash::Hash;

use crate::sides::Problem;

pub trait Standing: Clone + Eq + Hash {
    /// The bytes of one standing in a sheet, without tag and length.
    const BYTES: usize;

    /// The standing of the prefix `atom relation`, if it has one.
    fn first(problem: &Problem, atom: usize, relation: usize) -> Option<Self>;

    /// The standing one step later, if there is one.
    fn after(&self, problem: &Problem, atom: usize, relation: usize) -> Option<Self>;

    /// Does a prefix with this standing, ended by `atom`, refute the claim?
    fn refutes(&self, problem: &Problem, atom: usize) -> bool;

    fn write(&self, out: &mut Vec<u8>);

    /// The standing with these bytes, or nothing where a value is wrong.
    fn read(problem: &Problem, bytes: &[u8]) -> Option<Self>;
}

/// Bytes big-endian as one number; at most eight bytes.
pub fn big_endian(bytes: &[u8]) -> u64 {
    bytes.iter().fold(0, |number, &byte| number << 8 | u64::from(byte))
}

/// Are all occurrences of the set among the first `count`?
pub fn within_count(set: u64, count: usize) -> bool {
    count >= 64 || set >> count == 0
}
