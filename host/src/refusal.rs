//! Replies, and what a refusal says to a person. Forests, nodes, roots and positions are counted from 0.

use crate::cycle::Graph;
use crate::record::{self, Node, NODE_SIZE, ROW_SIZE};
use crate::{MOST, MOST_FORESTS, MOST_LIMIT};
use std::fmt;

/// The names of the replies, by number.
const NAMES: [&str; 14] = [
    "accepted",
    "BadBuffers",
    "TooMany",
    "BadRecord",
    "RootRange",
    "DuplicateExternal",
    "ChildRange",
    "Cycle",
    "TooDeep",
    "NoRoom",
    "ClassOrder",
    "DigestOrder",
    "ForwardReference",
    "BadLimit",
];

/// The names of the buffers, by number less 1.
const BUFFERS: [&str; 7] = [
    "table",
    "nodes",
    "roots",
    "node output",
    "root output",
    "id list",
    "work room",
];

/// How many nodes of a cycle a sentence shows.
const MOST_SHOWN: usize = 8;

/// What a call answers: a number and two values.
#[derive(Clone, Copy, Debug, PartialEq, Eq)]
pub struct Reply {
    pub number: u32,
    pub first: u64,
    pub second: u64,
}

impl Reply {
    /// The name that the manual gives the number.
    pub fn name(&self) -> &'static str {
        NAMES
            .get(self.number as usize)
            .copied()
            .unwrap_or("unknown")
    }
}

/// A reply that is not acceptance.
#[derive(Clone, Debug, PartialEq, Eq)]
pub struct Refusal {
    reply: Reply,
    sentence: String,
}

impl Refusal {
    /// The reply's number, 1 to 13.
    pub fn number(&self) -> u32 {
        self.reply.number
    }

    /// The name that the manual gives the number.
    pub fn name(&self) -> &'static str {
        self.reply.name()
    }

    /// The first value.
    pub fn first(&self) -> u64 {
        self.reply.first
    }

    /// The second value.
    pub fn second(&self) -> u64 {
        self.reply.second
    }

    /// The number and both values.
    pub fn reply(&self) -> Reply {
        self.reply
    }

    /// Where it is and what is wrong, for a person.
    pub fn sentence(&self) -> &str {
        &self.sentence
    }
}

impl fmt::Display for Refusal {
    fn fmt(&self, f: &mut fmt::Formatter) -> fmt::Result {
        write!(f, "{}: {}", self.name(), self.sentence)
    }
}

impl std::error::Error for Refusal {}

/// The entry points.
#[derive(Clone, Copy, Debug, PartialEq, Eq)]
pub enum Call {
    Validate,
    Canonicalize,
    Merge,
}

/// What a call was given to read.
#[derive(Clone, Copy, Debug)]
pub struct Job<'a> {
    call: Call,
    table: &'a [u8],
    nodes: &'a [u8],
    roots: &'a [u32],
    limit: u32,
}

impl<'a> Job<'a> {
    pub fn validate(nodes: &'a [u8]) -> Job<'a> {
        Job::one(Call::Validate, nodes, &[])
    }

    pub fn canonicalize(nodes: &'a [u8], roots: &'a [u32]) -> Job<'a> {
        Job::one(Call::Canonicalize, nodes, roots)
    }

    pub fn merge(table: &'a [u8], nodes: &'a [u8], roots: &'a [u32], limit: u32) -> Job<'a> {
        Job {
            call: Call::Merge,
            table,
            nodes,
            roots,
            limit,
        }
    }

    fn one(call: Call, nodes: &'a [u8], roots: &'a [u32]) -> Job<'a> {
        Job {
            call,
            table: &[],
            nodes,
            roots,
            limit: 0,
        }
    }

    /// A reply that is not acceptance, with its sentence.
    pub(crate) fn refusal(&self, reply: Reply) -> Refusal {
        Refusal {
            reply,
            sentence: self.sentence(reply),
        }
    }

    /// What a reply to this job says to a person.
    pub fn sentence(&self, reply: Reply) -> String {
        let Reply { first, second, .. } = reply;
        match reply.number {
            0 => self.accepted(first, second),
            1 => self.bad_buffers(first),
            2 => self.too_many(),
            3 => self.bad_record(first),
            4 => self.root_range(first),
            5 => self.duplicate_external(first),
            6 => self.child_range(first, second),
            7 => self.cycle(first),
            8 => self.too_deep(first),
            9 => no_room(first, second),
            10 => self.class_order(first),
            11 => self.digest_order(first),
            12 => self.forward_reference(first, second),
            13 => format!(
                "the limit is {}, but it must be from 1 to {MOST_LIMIT}",
                self.limit
            ),
            number => format!("the library answered {number}, which is no reply"),
        }
    }

    fn accepted(&self, nodes: u64, roots: u64) -> String {
        let (nodes, roots) = (counted(nodes, "node"), counted(roots, "root"));
        match self.call {
            Call::Validate => format!("{nodes} in canonical order"),
            Call::Canonicalize => format!("{nodes} and {roots}, put into canonical order"),
            Call::Merge => format!(
                "{nodes} and {roots}, merged from {} and {} of {}",
                counted(self.whole_records(), "node"),
                counted(self.roots.len() as u64, "root"),
                counted(self.whole_rows(), "forest")
            ),
        }
    }

    fn bad_buffers(&self, buffer: u64) -> String {
        match (buffer, self.call) {
            (1, _) => part(self.table.len(), ROW_SIZE, "table", "row"),
            (2, Call::Merge) => self.nodes_against_table(),
            (2, _) => part(self.nodes.len(), NODE_SIZE, "nodes", "record"),
            (3, Call::Merge) => self.roots_against_table(),
            _ => other_buffer(buffer),
        }
    }

    fn nodes_against_table(&self) -> String {
        let (sum, _) = record::sums(self.table);
        format!(
            "the table counts {}, which take {}, but the nodes have {}",
            counted(sum, "node"),
            counted(sum.saturating_mul(NODE_SIZE as u64), "byte"),
            counted(self.nodes.len() as u64, "byte")
        )
    }

    fn roots_against_table(&self) -> String {
        let (_, sum) = record::sums(self.table);
        format!(
            "the table counts {}, but the roots have {}",
            counted(sum, "root"),
            counted(self.roots.len() as u64, "entry")
        )
    }

    fn too_many(&self) -> String {
        let (nodes, roots) = match self.call {
            Call::Merge => record::sums(self.table),
            _ => (self.whole_records(), self.roots.len() as u64),
        };
        let who = match self.call {
            Call::Merge => "the table counts",
            _ => "the forest has",
        };
        if self.whole_rows() > MOST_FORESTS as u64 {
            let forests = counted(self.whole_rows(), "forest");
            return format!("{who} {forests}, more than the {MOST_FORESTS} that a merge takes");
        }
        let most = MOST as u64;
        let found = match nodes > most {
            true => counted(nodes, "node"),
            false => counted(roots, "root"),
        };
        format!("{who} {found}, more than the {most} that a call takes")
    }

    fn bad_record(&self, position: u64) -> String {
        let fault = self.node(position).and_then(|node| node.fault());
        let fault = fault.unwrap_or_else(|| "it is malformed".to_string());
        format!("{} is a bad record: {fault}", self.named(position))
    }

    fn root_range(&self, place: u64) -> String {
        let root = usize::try_from(place).ok().and_then(|k| self.roots.get(k));
        let node = match root {
            Some(root) => format!("node {root}"),
            None => "a node".to_string(),
        };
        match record::root_place(self.table, place) {
            Some(at) if self.call == Call::Merge => format!(
                "root {} of forest {} (place {place} of all roots) names {node}, but its forest has {}",
                at.number,
                at.forest,
                counted(at.nodes, "node")
            ),
            _ => format!(
                "root {place} names {node}, but the forest has {}",
                counted(self.whole_records(), "node")
            ),
        }
    }

    fn duplicate_external(&self, second: u64) -> String {
        let name = self.named(second);
        let Some(node) = self.node(second) else {
            return format!("{name} is an external whose digest an earlier external has");
        };
        let equal = |p: &u64| {
            self.node(*p)
                .is_some_and(|other| other.is_external() && other.digest == node.digest)
        };
        let earlier = match (0..second).find(equal) {
            Some(p) => self.named(p),
            None => "an earlier node".to_string(),
        };
        format!(
            "{name} is an external with the digest {}, which the external at {earlier} has already",
            node.digest
        )
    }

    fn child_range(&self, position: u64, child: u64) -> String {
        format!(
            "{} names child {child}, but its forest has {}",
            self.named(position),
            counted(self.forest_nodes(position), "node")
        )
    }

    fn cycle(&self, position: u64) -> String {
        let name = self.named(position);
        let found = match self.call {
            Call::Merge => format!("{name} leads back to itself, and a root reaches it"),
            _ => format!("{name} lies on a cycle or above one"),
        };
        match self.way(position) {
            Some(way) => format!("{found}: {way}"),
            None => found,
        }
    }

    /// A cycle in words, if one is looked for and found: each node, and how it leads to the next.
    fn way(&self, position: u64) -> Option<String> {
        let start = usize::try_from(position).ok()?;
        let cycle = match self.call {
            Call::Merge => Graph::of_forests(self.table, self.nodes)?.cycle(start)?,
            _ => Graph::of_forest(self.nodes)?.cycle(start)?,
        };
        let first = self.named(*cycle.first()? as u64);
        let ends = cycle.iter().skip(1).map(|&p| self.named(p as u64));
        let steps = cycle.iter().zip(ends.chain([first.clone()]));
        let shown = steps.take(MOST_SHOWN);
        let told: Vec<String> = shown.map(|(&p, end)| self.step(p as u64, &end)).collect();
        let rest = match cycle.len().saturating_sub(MOST_SHOWN) {
            0 => String::new(),
            more => format!(
                ", and so on, {} more, back to {first}",
                counted(more as u64, "step")
            ),
        };
        Some(format!("{first} {}{rest}", told.join(", which ")))
    }

    /// A step on a cycle: an external leads on by its replacement.
    fn step(&self, position: u64, end: &str) -> String {
        match self.node(position) {
            Some(node) if node.is_external() => format!("is an external replaced by {end}"),
            _ => format!("has the child {end}"),
        }
    }

    fn too_deep(&self, position: u64) -> String {
        let name = self.named(position);
        let open = counted(u64::from(self.limit), "node");
        let advice = match self.limit < MOST_LIMIT {
            true => format!("merge with a larger limit, up to {MOST_LIMIT}"),
            false => "no larger limit is possible".to_string(),
        };
        format!("{name} cannot be opened, as the limit is {open} open at once; {advice}")
    }

    fn class_order(&self, number: u64) -> String {
        let name = self.named(number);
        let before = number.checked_sub(1);
        match (self.node(number), before.and_then(|p| self.node(p))) {
            (Some(node), Some(other)) => format!(
                "{name} is an {}, but the node before it is an {}: externals come first, then blocks, then internals",
                node.class(),
                other.class()
            )
            .replace("an block", "a block"),
            _ => format!("{name} is of a class that belongs before the node before it"),
        }
    }

    fn digest_order(&self, number: u64) -> String {
        let name = self.named(number);
        let before = number.checked_sub(1);
        match (self.node(number), before.and_then(|p| self.node(p))) {
            (Some(node), Some(other)) => format!(
                "{name} is an external with the digest {}, which is {} the digest {} of the external before it",
                node.digest,
                match node.digest == other.digest {
                    true => "equal to",
                    false => "below",
                },
                other.digest
            ),
            _ => format!("{name} is an external whose digest is not above the one before"),
        }
    }

    fn forward_reference(&self, number: u64, child: u64) -> String {
        let name = self.named(number);
        let count = self.whole_records();
        if child == number {
            return format!("{name} names itself as a child");
        }
        if child >= count {
            let nodes = counted(count, "node");
            return format!("{name} names child {child}, but the forest has {nodes}");
        }
        format!("{name} names child {child}, which does not come before it")
    }

    /// A node in a person's words.
    fn named(&self, position: u64) -> String {
        if self.call != Call::Merge {
            return format!("node {position}");
        }
        match record::node_place(self.table, position) {
            Some(at) => format!(
                "node {} of forest {} (position {position})",
                at.number, at.forest
            ),
            None => format!("the node at position {position}"),
        }
    }

    /// The number of nodes of the forest that a position lies in.
    fn forest_nodes(&self, position: u64) -> u64 {
        match (self.call, record::node_place(self.table, position)) {
            (Call::Merge, Some(at)) => at.nodes,
            _ => self.whole_records(),
        }
    }

    fn node(&self, position: u64) -> Option<Node> {
        Node::at(self.nodes, usize::try_from(position).ok()?)
    }

    fn whole_records(&self) -> u64 {
        (self.nodes.len() / NODE_SIZE) as u64
    }

    fn whole_rows(&self) -> u64 {
        (self.table.len() / ROW_SIZE) as u64
    }
}

fn no_room(nodes: u64, roots: u64) -> String {
    format!(
        "the result has {} and {}, more than the room that was lent holds",
        counted(nodes, "node"),
        counted(roots, "root")
    )
}

fn part(length: usize, size: usize, buffer: &str, record: &str) -> String {
    let verb = match buffer {
        "table" => "has",
        _ => "have",
    };
    format!(
        "the {buffer} {verb} {}, which is {} of {size} bytes and {} more",
        counted(length as u64, "byte"),
        counted((length / size) as u64, record),
        counted((length % size) as u64, "byte")
    )
}

fn other_buffer(buffer: u64) -> String {
    let name = usize::try_from(buffer)
        .ok()
        .and_then(|number| BUFFERS.get(number.checked_sub(1)?));
    match name {
        Some(name) => format!("the {name} (buffer {buffer}) that was lent has the wrong length"),
        None => format!("buffer {buffer} has the wrong length"),
    }
}

/// A count with its noun: `1 node`, `2 nodes`, `0 entries`.
pub fn counted(count: u64, noun: &str) -> String {
    match (count, noun.strip_suffix('y')) {
        (1, _) => format!("1 {noun}"),
        (_, Some(stem)) => format!("{count} {stem}ies"),
        (_, None) => format!("{count} {noun}s"),
    }
}
