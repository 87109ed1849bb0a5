//! The proved functions, for the comparison and the benchmark.

pub mod proved;
