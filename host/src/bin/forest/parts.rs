//! The forests of a folder, also of one whose files disagree.

use forest_merge::counted;
use forest_merge::record::{self, Node, Row, NODE_SIZE, ROW_SIZE};

/// What is shown.
pub struct Input {
    pub table: Vec<u8>,
    pub nodes: Vec<u8>,
    pub roots: Vec<u32>,
}

/// A forest: what the table counts, and what is there of it.
pub struct Part<'a> {
    pub number: usize,
    pub counts: Row,
    nodes: &'a [u8],
    pub roots: &'a [u32],
}

impl Input {
    /// The forests, in the order of the table.
    pub fn parts(&self) -> impl Iterator<Item = Part<'_>> {
        let (mut nodes, mut roots) = (&self.nodes[..], &self.roots[..]);
        record::rows(&self.table)
            .enumerate()
            .map(move |(number, counts)| Part {
                number,
                counts,
                nodes: take(&mut nodes, counts.nodes as usize, NODE_SIZE),
                roots: take(&mut roots, counts.roots as usize, 1),
            })
    }

    /// Where the files disagree.
    pub fn notes(&self) -> Vec<String> {
        let (nodes, roots) = record::sums(&self.table);
        let records = (self.nodes.len() / NODE_SIZE) as u64;
        let mut notes = Vec::new();
        disagree(&mut notes, "node", nodes, records);
        disagree(&mut notes, "root", roots, self.roots.len() as u64);
        left_over(&mut notes, "table", self.table.len() % ROW_SIZE, "row");
        left_over(&mut notes, "nodes", self.nodes.len() % NODE_SIZE, "record");
        notes
    }
}

impl Part<'_> {
    /// How many whole records there are.
    pub fn len(&self) -> usize {
        self.nodes.len() / NODE_SIZE
    }

    /// A node; none where the forest has no such node.
    pub fn node(&self, number: u32) -> Option<Node> {
        Node::at(self.nodes, number as usize)
    }

    /// Why there is no node of this number.
    pub fn absence(&self, number: u32) -> String {
        match number < self.counts.nodes {
            true => "missing: the file nodes ends before it".to_string(),
            false => format!(
                "out of range: the forest has {}",
                counted(u64::from(self.counts.nodes), "node")
            ),
        }
    }

    /// The children that are followed: those of a good record.
    pub fn children(&self, number: u32) -> Vec<u32> {
        match self.node(number) {
            Some(node) if node.fault().is_none() => node.children().to_vec(),
            _ => Vec::new(),
        }
    }

    /// Which nodes the roots lead to.
    pub fn reached(&self) -> Vec<bool> {
        let mut reached = vec![false; self.len()];
        let mut waiting = self.roots.to_vec();
        while let Some(number) = waiting.pop() {
            match reached.get_mut(number as usize) {
                Some(seen) if !*seen => *seen = true,
                _ => continue,
            }
            waiting.extend(self.children(number));
        }
        reached
    }
}

/// Takes that many elements of a size from the front, or as many as are whole.
fn take<'a, T>(rest: &mut &'a [T], count: usize, size: usize) -> &'a [T] {
    let there = rest.len() / size;
    let (front, back) = rest.split_at(count.min(there) * size);
    *rest = back;
    front
}

fn disagree(notes: &mut Vec<String>, noun: &str, counted_there: u64, found: u64) {
    if counted_there != found {
        notes.push(format!(
            "the table counts {}, but the file {noun}s holds {found}",
            counted(counted_there, noun)
        ));
    }
}

fn left_over(notes: &mut Vec<String>, file: &str, bytes: usize, record: &str) {
    if bytes != 0 {
        notes.push(format!(
            "the file {file} has {} behind its last whole {record}",
            counted(bytes as u64, "byte")
        ));
    }
}
