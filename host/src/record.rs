//! Records as a person reads them: nodes, table rows, and where a position lies.

use std::fmt;

/// The bytes of a node record.
pub const NODE_SIZE: usize = 48;

/// The bytes of a table row.
pub const ROW_SIZE: usize = 8;

/// The bytes of a root in a file.
pub const ROOT_SIZE: usize = 4;

/// The highest kind, and the most children of a node.
const MOST_KIND: u32 = 255;
const MOST_CHILDREN: u32 = 2;

/// A node record, as it stands: it may be bad.
#[derive(Clone, Copy, Debug, PartialEq, Eq)]
pub struct Node {
    pub kind: u32,
    pub count: u32,
    pub kids: [u32; 2],
    pub digest: Digest,
}

/// Four words, the first decides. Shown in hexadecimal with a dot between words.
#[derive(Clone, Copy, Debug, PartialEq, Eq, PartialOrd, Ord, Hash)]
pub struct Digest(pub [u64; 4]);

/// A table row.
#[derive(Clone, Copy, Debug, PartialEq, Eq)]
pub struct Row {
    pub nodes: u32,
    pub roots: u32,
}

/// The number of something within its forest, and how many nodes that forest has.
#[derive(Clone, Copy, Debug, PartialEq, Eq)]
pub struct Place {
    pub forest: usize,
    pub number: u64,
    pub nodes: u64,
}

impl fmt::Display for Digest {
    fn fmt(&self, f: &mut fmt::Formatter) -> fmt::Result {
        let [a, b, c, d] = self.0;
        write!(f, "{a:x}.{b:x}.{c:x}.{d:x}")
    }
}

impl Node {
    /// The record at a position; none where the bytes hold no whole record there.
    pub fn at(nodes: &[u8], position: usize) -> Option<Node> {
        let bytes = nodes.chunks_exact(NODE_SIZE).nth(position)?;
        Some(Node {
            kind: u32_at(bytes, 0),
            count: u32_at(bytes, 4),
            kids: [u32_at(bytes, 8), u32_at(bytes, 12)],
            digest: Digest([16, 24, 32, 40].map(|offset| u64_at(bytes, offset))),
        })
    }

    /// What the kind stands for.
    pub fn class(&self) -> &'static str {
        match self.kind {
            0 => "external",
            1 => "block",
            _ => "internal",
        }
    }

    /// Whether the node is an external.
    pub fn is_external(&self) -> bool {
        self.kind == 0
    }

    /// The children, or as many as there are fields for.
    pub fn children(&self) -> &[u32] {
        &self.kids[..self.count.min(MOST_CHILDREN) as usize]
    }

    /// Why the record is bad; none where it is good.
    pub fn fault(&self) -> Option<String> {
        if self.kind > MOST_KIND {
            return Some(format!("its kind is {}, above {MOST_KIND}", self.kind));
        }
        if self.count > MOST_CHILDREN {
            return Some(format!(
                "its child count is {}, above {MOST_CHILDREN}",
                self.count
            ));
        }
        if self.kind < 2 && self.count != 0 {
            return Some(format!(
                "its kind is {} ({}), which has no children, but its child count is {}",
                self.kind,
                self.class(),
                self.count
            ));
        }
        self.field_fault()
    }

    /// Why a child field past the count is bad.
    fn field_fault(&self) -> Option<String> {
        let unused = self.children().len();
        let field = (unused..2).find(|&field| self.kids[field] != 0)?;
        let name = ["first", "second"][field];
        Some(format!(
            "its child count is {}, but its {name} child field is {} and not 0",
            self.count, self.kids[field]
        ))
    }
}

/// The whole rows of a table.
pub fn rows(table: &[u8]) -> impl Iterator<Item = Row> + '_ {
    table.chunks_exact(ROW_SIZE).map(|bytes| Row {
        nodes: u32_at(bytes, 0),
        roots: u32_at(bytes, 4),
    })
}

/// The sums of node and root counts over the whole rows.
pub fn sums(table: &[u8]) -> (u64, u64) {
    rows(table).fold((0, 0), |(nodes, roots), row| {
        (nodes + u64::from(row.nodes), roots + u64::from(row.roots))
    })
}

/// The forest that a position of a node lies in.
pub fn node_place(table: &[u8], position: u64) -> Option<Place> {
    place(table, position, |row| row.nodes)
}

/// The forest that a place in the root buffer lies in.
pub fn root_place(table: &[u8], position: u64) -> Option<Place> {
    place(table, position, |row| row.roots)
}

fn place(table: &[u8], position: u64, count: impl Fn(Row) -> u32) -> Option<Place> {
    let mut number = position;
    for (forest, row) in rows(table).enumerate() {
        let here = u64::from(count(row));
        if number < here {
            let nodes = u64::from(row.nodes);
            return Some(Place {
                forest,
                number,
                nodes,
            });
        }
        number -= here;
    }
    None
}

fn u32_at(bytes: &[u8], offset: usize) -> u32 {
    let mut word = [0; 4];
    word.copy_from_slice(&bytes[offset..offset + 4]);
    u32::from_le_bytes(word)
}

fn u64_at(bytes: &[u8], offset: usize) -> u64 {
    let mut word = [0; 8];
    word.copy_from_slice(&bytes[offset..offset + 8]);
    u64::from_le_bytes(word)
}
