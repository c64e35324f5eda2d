//! The oracle's own: a fixed list of cases with the Rust's answers, for the program `replay`.

pub mod answer;
pub mod entry;
pub mod families;
pub mod plan;
