//! The proved library as safe functions: the tests hold them against the second program.

pub mod answers;
pub mod proved;
