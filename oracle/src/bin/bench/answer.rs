//! Answers as both sides give them, for the comparison before the timing.

#[derive(PartialEq, Eq)]
pub struct Answer {
    pub number: u32,
    pub first: u64,
    pub second: u64,
    pub nodes: Vec<u8>,
    pub roots: Vec<u32>,
    pub ids: Vec<u32>,
}

impl Answer {
    pub fn accepted(nodes: Vec<u8>, roots: Vec<u32>, ids: Vec<u32>) -> Answer {
        let (first, second) = (nodes.len() as u64 / 48, roots.len() as u64);
        Answer { number: 0, first, second, nodes, roots, ids }
    }

    pub fn refused(number: u32, first: u64, second: u64) -> Answer {
        Answer { number, first, second, nodes: vec![], roots: vec![], ids: vec![] }
    }

    /// Validate gives the number of nodes and writes nothing.
    pub fn valid(nodes: usize) -> Answer {
        Answer::refused(0, nodes as u64, 0)
    }

    /// What is unlike, in words.
    pub fn difference(&self, other: &Answer) -> Option<&'static str> {
        if (self.number, self.first, self.second) != (other.number, other.first, other.second) {
            return Some("replies");
        }
        if self.nodes != other.nodes {
            return Some("nodes");
        }
        if self.roots != other.roots {
            return Some("roots");
        }
        (self.ids != other.ids).then_some("ids")
    }
}

pub fn root_words(bytes: &[u8]) -> Vec<u32> {
    bytes.chunks_exact(4).map(|root| u32::from_le_bytes(root.try_into().unwrap())).collect()
}
