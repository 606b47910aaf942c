//! Random pictures and sync texts, which the comparison and the benchmark share.

pub mod generate;
pub mod random;
pub mod sync;
