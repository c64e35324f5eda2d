//! Our side: always from bytes, in buffers that are allocated and touched before the timing.

use std::{hint::black_box, time::Instant};

use forest_merge::{Reply, Room, raw};
use oracle::case::{Case, Op};

use crate::answer::{Answer, root_words};

pub struct Lent<'a> {
    case: &'a Case,
    roots: Vec<u32>,
    room: Room,
}

impl<'a> Lent<'a> {
    /// Every word is written, so that no page is new to the timed call.
    pub fn new(case: &'a Case) -> Lent<'a> {
        let roots = root_words(&case.roots);
        let mut room = Room::for_input(&case.nodes, &roots);
        room.nodes.fill(u8::MAX);
        room.roots.fill(u32::MAX);
        room.ids.fill(u32::MAX);
        room.work.fill(u32::MAX);
        Lent { case, roots, room }
    }

    pub fn nodes(&self) -> usize {
        self.case.nodes.len() / 48
    }

    fn run(&mut self) -> Reply {
        let case = black_box(self.case);
        match case.op {
            Op::Validate => raw::validate(&case.nodes),
            Op::Merge => {
                let limit = case.limit as u32;
                raw::merge(&case.table, &case.nodes, &self.roots, limit, &mut self.room)
            },
            _ => raw::canonicalize(&case.nodes, &self.roots, &mut self.room),
        }
    }

    pub fn call(&mut self) -> (u64, Reply) {
        let begin = Instant::now();
        let reply = black_box(self.run());
        (begin.elapsed().as_nanos() as u64, reply)
    }

    /// Outputs, id list and work room, in bytes; validate is lent nothing.
    pub fn bytes(&self) -> usize {
        if self.case.op == Op::Validate {
            return 0;
        }
        let words = self.room.roots.len() + self.room.ids.len() + self.room.work.len();
        self.room.nodes.len() + 4 * words
    }

    /// The result of the call just made, in the form in which the two sides are compared.
    pub fn answer(&self, reply: Reply) -> Answer {
        if reply.number != 0 || self.case.op == Op::Validate {
            return Answer::refused(reply.number, reply.first, reply.second);
        }
        let (nodes, roots) = (reply.first as usize, reply.second as usize);
        Answer {
            number: 0,
            first: reply.first,
            second: reply.second,
            nodes: self.room.nodes[..48 * nodes].to_vec(),
            roots: self.room.roots[..roots].to_vec(),
            ids: self.room.ids.clone(),
        }
    }
}
