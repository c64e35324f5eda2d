//! The entry points as they are, for a caller who keeps his own room and looks at it after a refusal too.
//!
//! All unsafe code of this package is here.
//!
//! Each call is sound for one reason: every pointer and length comes from one Rust slice or reference, so it is
//! non-null, aligned, valid for that length and, where it is written, exclusive. The library reads and writes
//! within these lengths only, keeps no pointer, and does not unwind; every bit pattern is a `u8`, `u32` or `u64`.

use crate::{Reply, Room};

extern "C" {
    fn forest_validate(
        nodes: *const u8,
        nodes_len: usize,
        first: *mut u64,
        second: *mut u64,
    ) -> u32;

    fn forest_canonicalize(
        nodes: *const u8,
        nodes_len: usize,
        roots: *const u32,
        roots_len: usize,
        node_out: *mut u8,
        node_out_len: usize,
        root_out: *mut u32,
        root_out_len: usize,
        ids: *mut u32,
        ids_len: usize,
        work: *mut u32,
        work_len: usize,
        first: *mut u64,
        second: *mut u64,
    ) -> u32;

    fn forest_merge(
        table: *const u8,
        table_len: usize,
        nodes: *const u8,
        nodes_len: usize,
        roots: *const u32,
        roots_len: usize,
        limit: u32,
        node_out: *mut u8,
        node_out_len: usize,
        root_out: *mut u32,
        root_out_len: usize,
        ids: *mut u32,
        ids_len: usize,
        work: *mut u32,
        work_len: usize,
        first: *mut u64,
        second: *mut u64,
    ) -> u32;
}

/// A reply from a call that writes its two values.
fn reply(call: impl FnOnce(&mut u64, &mut u64) -> u32) -> Reply {
    let (mut first, mut second) = (0, 0);
    let number = call(&mut first, &mut second);
    Reply {
        number,
        first,
        second,
    }
}

pub fn validate(nodes: &[u8]) -> Reply {
    // Sound: see the head of this module.
    reply(|first, second| unsafe { forest_validate(nodes.as_ptr(), nodes.len(), first, second) })
}

pub fn canonicalize(nodes: &[u8], roots: &[u32], room: &mut Room) -> Reply {
    // Sound: see the head of this module.
    reply(|first, second| unsafe {
        forest_canonicalize(
            nodes.as_ptr(),
            nodes.len(),
            roots.as_ptr(),
            roots.len(),
            room.nodes.as_mut_ptr(),
            room.nodes.len(),
            room.roots.as_mut_ptr(),
            room.roots.len(),
            room.ids.as_mut_ptr(),
            room.ids.len(),
            room.work.as_mut_ptr(),
            room.work.len(),
            first,
            second,
        )
    })
}

pub fn merge(
    table: &[u8],
    nodes: &[u8],
    roots: &[u32],
    limit: u32,
    room: &mut Room,
) -> Reply {
    // Sound: see the head of this module.
    reply(|first, second| unsafe {
        forest_merge(
            table.as_ptr(),
            table.len(),
            nodes.as_ptr(),
            nodes.len(),
            roots.as_ptr(),
            roots.len(),
            limit,
            room.nodes.as_mut_ptr(),
            room.nodes.len(),
            room.roots.as_mut_ptr(),
            room.roots.len(),
            room.ids.as_mut_ptr(),
            room.ids.len(),
            room.work.as_mut_ptr(),
            room.work.len(),
            first,
            second,
        )
    })
}
