//! A cycle among nodes, looked for so that a person can be told of it. Where memory is short none is found.

use crate::record::{self, Digest, Node, NODE_SIZE};
use std::collections::HashMap;

/// The most nodes among which a cycle is looked for.
const MOST_SEARCHED: usize = 1_000_000;

/// The steps between nodes: from a node to a child, and in a merge from an external to its replacement.
pub(crate) struct Graph<'a> {
    nodes: &'a [u8],
    /// For each position where its forest starts.
    starts: Vec<usize>,
    /// For each digest the highest position of a node with it that is no external.
    holders: HashMap<Digest, usize>,
}

#[derive(Clone, Copy, PartialEq, Eq)]
enum State {
    New,
    Open,
    Done,
}

/// A node on the path of a walk, and how many steps from it have been taken.
struct Open {
    position: usize,
    taken: usize,
}

impl<'a> Graph<'a> {
    /// The graph of one forest; none where it is too large to search.
    pub(crate) fn of_forest(nodes: &'a [u8]) -> Option<Graph<'a>> {
        Some(Graph {
            nodes,
            starts: filled(searched(nodes)?, 0)?,
            holders: HashMap::new(),
        })
    }

    /// The graph of a merge; none where it is too large to search.
    pub(crate) fn of_forests(table: &[u8], nodes: &'a [u8]) -> Option<Graph<'a>> {
        let count = searched(nodes)?;
        let mut starts = filled(count, 0)?;
        let mut start = 0;
        for row in record::rows(table) {
            let end = (start + row.nodes as usize).min(count);
            starts[start..end].fill(start);
            start = end;
        }
        let mut holders = HashMap::new();
        holders.try_reserve(count).ok()?;
        for position in 0..count {
            let node = Node::at(nodes, position)?;
            if !node.is_external() {
                holders.insert(node.digest, position);
            }
        }
        Some(Graph {
            nodes,
            starts,
            holders,
        })
    }

    /// The position that a step leads to, by the step's place in the order of the walk.
    fn step(&self, position: usize, place: usize) -> Option<usize> {
        let node = Node::at(self.nodes, position)?;
        if node.is_external() {
            let holder = self.holders.get(&node.digest).copied();
            return holder.filter(|_| place == 0);
        }
        let child = node.children().get(place)?;
        Some(self.starts.get(position)? + *child as usize)
    }

    /// The first cycle that a walk from a position meets, from the node that it meets again.
    pub(crate) fn cycle(&self, start: usize) -> Option<Vec<usize>> {
        let mut states = filled(self.starts.len(), State::New)?;
        let mut path: Vec<Open> = Vec::new();
        let mut next = start;
        loop {
            match states.get(next)? {
                State::Open => return Some(tail(&path, next)),
                State::Done => {}
                State::New => {
                    states[next] = State::Open;
                    path.try_reserve(1).ok()?;
                    path.push(Open {
                        position: next,
                        taken: 0,
                    });
                }
            }
            next = self.advance(&mut path, &mut states)?;
        }
    }

    /// The next step of a walk; nodes without a further step are done and leave the path.
    fn advance(&self, path: &mut Vec<Open>, states: &mut [State]) -> Option<usize> {
        loop {
            let open = path.last_mut()?;
            if let Some(next) = self.step(open.position, open.taken) {
                open.taken += 1;
                return Some(next);
            }
            states[open.position] = State::Done;
            path.pop();
        }
    }
}

/// The positions of a path from a given one on.
fn tail(path: &[Open], position: usize) -> Vec<usize> {
    let positions = path.iter().map(|open| open.position);
    positions.skip_while(|&p| p != position).collect()
}

/// The number of nodes, if it is not too large.
fn searched(nodes: &[u8]) -> Option<usize> {
    let count = nodes.len() / NODE_SIZE;
    (count <= MOST_SEARCHED).then_some(count)
}

fn filled<T: Clone>(length: usize, value: T) -> Option<Vec<T>> {
    let mut buffer = Vec::new();
    buffer.try_reserve_exact(length).ok()?;
    buffer.resize(length, value);
    Some(buffer)
}
