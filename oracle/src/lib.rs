//! The Rust text over stand-ins, and our library beside it. README.md says which file is whose text.
#![allow(dead_code)]

extern crate alloc;

pub mod mast;
pub mod utils;
mod word;
pub use word::Word;

pub mod case;
#[cfg(feature = "ours")]
pub mod compare;
pub mod doc01;
pub mod engine;
pub mod front;
pub mod guard;
pub mod list;
#[cfg(feature = "ours")]
pub mod ours;
pub mod random;
pub mod workload;
