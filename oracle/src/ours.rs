//! The oracle's own: hands a case to our library, in lent buffers of any length and with any contents.

use forest_merge::{Reply, Room, raw};

use crate::case::{Case, Op};

/// The roots of a case as words: what is left over of a last part word is not lent.
pub fn root_words(case: &Case) -> Vec<u32> {
    case.roots.chunks_exact(4).map(|r| u32::from_le_bytes(r.try_into().unwrap())).collect()
}

/// The reply of our library; the room is as the call left it.
pub fn run(case: &Case, room: &mut Room) -> Reply {
    let roots = root_words(case);
    match case.op {
        Op::Validate => raw::validate(&case.nodes),
        // Ours has one such call, whichever of the Rust's two it is held against.
        Op::Canonicalize | Op::CanonicalizeParts => raw::canonicalize(&case.nodes, &roots, room),
        Op::Merge => {
            let limit = u32::try_from(case.limit).unwrap_or(u32::MAX);
            raw::merge(&case.table, &case.nodes, &roots, limit, room)
        },
    }
}
