//! Seeded generators of queries, sheets and graphs, good and damaged.

pub mod rng;
pub mod print;
pub mod trees;
pub mod queries;
pub mod limits;
pub mod damage;
pub mod sheets;
pub mod graphs;
pub mod every_way;
pub mod judged;
