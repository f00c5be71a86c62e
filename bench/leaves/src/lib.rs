//! Single steps of the arithmetic, for the benchmark: the port's, and the same with u128.

pub mod port;
pub mod with_u128;
