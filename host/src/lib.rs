//! The proved forest merge as a safe library: owned buffers, and refusals that a person can read.
//!
//! Forests, nodes, roots and positions are counted from 0, as in the manual. A merge needs a stack of about 80
//! bytes for each open node, 333 KB at limit 4,096: a thread with Rust's usual 2 MiB is enough.

#![deny(unsafe_code)]

mod cycle;
#[allow(unsafe_code)]
pub mod raw;
pub mod record;
mod refusal;
mod room;

pub use refusal::{counted, Call, Job, Refusal, Reply};
pub use room::Room;

/// The most nodes, and the most roots, of a call.
pub const MOST: usize = 1_073_741_823;

/// The most forests of a merge.
pub const MOST_FORESTS: usize = 1_024;

/// The highest depth limit of a merge.
pub const MOST_LIMIT: u32 = 4_096;

/// The words of work room for each node.
pub const WORK_WORDS: usize = 16;

/// The mark for none in an id list: the node is not in the result.
pub const NO_ID: u32 = u32::MAX;

/// A result: node records, roots, and for each input position its number in the result.
#[derive(Clone, Debug, PartialEq, Eq)]
pub struct Forest {
    pub nodes: Vec<u8>,
    pub roots: Vec<u32>,
    pub ids: Vec<u32>,
}

/// One forest in canonical order.
pub type Canonical = Forest;

/// Many forests as one.
pub type Merged = Forest;

/// The number of nodes, if they stand in canonical order.
pub fn validate(nodes: &[u8]) -> Result<u64, Refusal> {
    let reply = raw::validate(nodes);
    match reply.number {
        0 => Ok(reply.first),
        _ => Err(Job::validate(nodes).refusal(reply)),
    }
}

/// One forest in canonical order. Where memory is short it ends the process, as `Vec` does.
pub fn canonicalize(nodes: &[u8], roots: &[u32]) -> Result<Canonical, Refusal> {
    canonicalize_in(Room::for_input(nodes, roots), nodes, roots)
}

/// As `canonicalize`, in a given room.
pub fn canonicalize_in(mut room: Room, nodes: &[u8], roots: &[u32]) -> Result<Canonical, Refusal> {
    let reply = raw::canonicalize(nodes, roots, &mut room);
    room.settle(reply, &Job::canonicalize(nodes, roots))
}

/// Many forests merged into one. Where memory is short it ends the process, as `Vec` does.
pub fn merge(table: &[u8], nodes: &[u8], roots: &[u32], limit: u32) -> Result<Merged, Refusal> {
    merge_in(Room::for_input(nodes, roots), table, nodes, roots, limit)
}

/// As `merge`, in a given room.
pub fn merge_in(
    mut room: Room,
    table: &[u8],
    nodes: &[u8],
    roots: &[u32],
    limit: u32,
) -> Result<Merged, Refusal> {
    let reply = raw::merge(table, nodes, roots, limit, &mut room);
    room.settle(reply, &Job::merge(table, nodes, roots, limit))
}
