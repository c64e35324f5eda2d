//! The buffers that a call writes.

use crate::record::NODE_SIZE;
use crate::{Forest, Job, Refusal, Reply, MOST, WORK_WORDS};
use std::collections::TryReserveError;

/// Node output, root output, id list and work room.
#[derive(Debug)]
pub struct Room {
    pub nodes: Vec<u8>,
    pub roots: Vec<u32>,
    pub ids: Vec<u32>,
    pub work: Vec<u32>,
}

/// The numbers of elements of a room.
struct Lengths {
    nodes: usize,
    roots: usize,
    ids: usize,
    work: usize,
}

impl Lengths {
    /// As much as any result needs. A call on more than the most nodes or roots is refused before it looks at the
    /// room, so that room is empty.
    fn for_input(nodes: &[u8], roots: &[u32]) -> Lengths {
        let count = nodes.len() / NODE_SIZE;
        let fits = count <= MOST && roots.len() <= MOST;
        let up_to = |length: usize| if fits { length } else { 0 };
        Lengths {
            nodes: up_to(nodes.len()),
            roots: up_to(roots.len()),
            ids: up_to(count),
            work: up_to(count).saturating_mul(WORK_WORDS),
        }
    }
}

impl Room {
    /// A room in which any result of these nodes and roots fits.
    pub fn for_input(nodes: &[u8], roots: &[u32]) -> Room {
        let lengths = Lengths::for_input(nodes, roots);
        Room::with_lengths(lengths.nodes, lengths.roots, lengths.ids, lengths.work)
    }

    /// As `for_input`, or an error where memory is short.
    pub fn try_for_input(nodes: &[u8], roots: &[u32]) -> Result<Room, TryReserveError> {
        let lengths = Lengths::for_input(nodes, roots);
        Ok(Room {
            nodes: zeros(lengths.nodes)?,
            roots: zeros(lengths.roots)?,
            ids: zeros(lengths.ids)?,
            work: zeros(lengths.work)?,
        })
    }

    /// A room of any lengths: bytes of node output, words of the others. A call refuses what does not fit.
    pub fn with_lengths(nodes: usize, roots: usize, ids: usize, work: usize) -> Room {
        Room {
            nodes: vec![0; nodes],
            roots: vec![0; roots],
            ids: vec![0; ids],
            work: vec![0; work],
        }
    }

    /// The result of an accepted call. After a refusal the room is given up before the sentence is made.
    pub(crate) fn settle(self, reply: Reply, job: &Job) -> Result<Forest, Refusal> {
        if reply.number == 0 {
            return Ok(self.cut(reply));
        }
        drop(self);
        Err(job.refusal(reply))
    }

    /// The outputs cut to the reply's counts.
    fn cut(mut self, reply: Reply) -> Forest {
        let nodes = usize::try_from(reply.first).unwrap_or(usize::MAX);
        let roots = usize::try_from(reply.second).unwrap_or(usize::MAX);
        self.nodes.truncate(nodes.saturating_mul(NODE_SIZE));
        self.roots.truncate(roots);
        Forest {
            nodes: self.nodes,
            roots: self.roots,
            ids: self.ids,
        }
    }
}

fn zeros<T: Clone + Default>(length: usize) -> Result<Vec<T>, TryReserveError> {
    let mut buffer = Vec::new();
    buffer.try_reserve_exact(length)?;
    buffer.resize(length, T::default());
    Ok(buffer)
}
