//! The oracle's own: the same bytes to the Rust text and to our library, and every result compared.

pub mod damage;
pub mod exhaustive;
pub mod judge;
pub mod kinds;
pub mod lengths;
pub mod lent;
pub mod sizes;
pub mod tally;
