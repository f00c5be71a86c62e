//! The original beside the rules: cases without end, what the two say to them, and how that is
//! classed.

pub mod bounds;
pub mod compare;
pub mod differences;
pub mod driver;
pub mod edges;
pub mod generator;
pub mod late;
pub mod left;
pub mod page;
pub mod random;
mod reasons;
pub mod sample;
pub mod sheet;
mod shrink;
pub mod verdict;
