//! What one call is lent, and what it leaves.

use forest_merge::Room;

use crate::{
    case::{Case, Op, Out},
    front::{Lengths, Refused},
    ours,
    random::Rng,
};

/// A case with the lengths of its outputs and the seed of what they hold beforehand.
#[derive(Debug, Clone)]
pub struct Lent {
    pub case: Case,
    pub room: Lengths,
    pub prior: u64,
}

/// What a call left: its reply and the four buffers.
pub struct Outcome {
    pub reply: Refused,
    pub room: Room,
}

impl Lent {
    /// With room for any result.
    pub fn enough(case: Case, prior: u64) -> Lent {
        let room = Lengths::enough(&case);
        Lent { case, room, prior }
    }

    /// The outputs as they are before the call: no word is 0, and none like the next.
    pub fn before(&self) -> Room {
        let mut room =
            Room::with_lengths(self.room.nodes, self.room.roots, self.room.ids, self.room.work);
        let mut source = Rng(self.prior);
        for part in room.nodes.chunks_mut(8) {
            let word = (source.next() | 0x0101_0101_0101_0101).to_le_bytes();
            part.copy_from_slice(&word[..part.len()]);
        }
        for words in [&mut room.roots, &mut room.ids, &mut room.work] {
            words.iter_mut().for_each(|w| *w = source.next() as u32 | 1);
        }
        room
    }

    /// What our library leaves.
    pub fn ours(&self) -> Outcome {
        let mut room = self.before();
        let reply = ours::run(&self.case, &mut room);
        Outcome { reply: (reply.number, reply.first, reply.second), room }
    }

    /// What document 01 has a call leave that answers this; `out` is the result, if accepted.
    pub fn left(&self, reply: Refused, out: &Out) -> Outcome {
        let mut room = self.before();
        if !matches!(reply.0, 13 | 2 | 1) {
            room.work.fill(0);
        }
        if reply.0 == 0 {
            let mut bytes = Vec::with_capacity(out.nodes.len() * 48);
            out.nodes.iter().for_each(|r| r.write(&mut bytes));
            put(&mut room.nodes, &bytes);
            put(&mut room.roots, &out.roots);
            put(&mut room.ids, &out.map);
        }
        Outcome { reply, room }
    }

    /// Whether a merged result fits the outputs, in whole records.
    pub fn fits(&self, nodes: u64, roots: u64) -> bool {
        nodes <= (self.room.nodes / 48) as u64 && roots <= self.room.roots as u64
    }

    /// The order in which cases are called small: what is read, by length and by its numbers, then
    /// the room and the limit.
    pub fn size(&self) -> [u64; 4] {
        let c = &self.case;
        let read = || c.table.iter().chain(&c.nodes).chain(&c.roots);
        let room = self.room.nodes + 4 * (self.room.roots + self.room.ids + self.room.work);
        [read().count() as u64, read().map(|&b| b as u64).sum(), room as u64, c.limit]
    }

    pub fn text(&self) -> String {
        let (c, r) = (&self.case, &self.room);
        let call = match c.op {
            Op::Merge => format!("merge@{}", c.limit),
            op => op.word().to_string(),
        };
        let Lengths { nodes, roots, ids, work } = r;
        format!("{call} {} [room {nodes} {roots} {ids} {work}, prior {}]", c.short(), self.prior)
    }
}

/// A result that does not fit is left out, and the difference is then seen.
fn put<T: Copy>(room: &mut [T], result: &[T]) {
    if let Some(place) = room.get_mut(..result.len()) {
        place.copy_from_slice(result);
    }
}

impl Outcome {
    /// What is not the same in the other, if anything.
    pub fn differs(&self, other: &Outcome) -> Option<&'static str> {
        let (a, b) = (&self.room, &other.room);
        let parts = [
            ("reply", self.reply == other.reply),
            ("node output", a.nodes == b.nodes),
            ("root output", a.roots == b.roots),
            ("id list", a.ids == b.ids),
            ("work room", a.work == b.work),
        ];
        parts.iter().find(|p| !p.1).map(|p| p.0)
    }
}
