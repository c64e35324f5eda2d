//! Damaged copies of good cases: one thing is changed in each.

use crate::{
    case::{Case, Op},
    compare::{exhaustive::Look, lent::Lent, sizes::loosened},
    random::{Rng, random_case},
};

const ROW: usize = 8;
const NODE: usize = 48;
const WORD: usize = 4;

/// Damaged copies of random cases, by turns in each of the ways below.
pub fn damaged(look: Look, seed: u64, count: u64) {
    let mut r = Rng(seed);
    for i in 0..count {
        let good = random_case(&mut r, String::new());
        let mut case = good.clone();
        DAMAGES[(i % DAMAGES.len() as u64) as usize](&mut case, &mut r);
        // The room of the good case, which may no longer fit, or that of the damaged one.
        let fitted = r.chance(2, 3);
        let mut lent = Lent::enough(if fitted { case.clone() } else { good }, r.next());
        lent.case = case;
        if r.chance(1, 16) {
            loosened(&mut lent, &mut r);
        }
        look(lent);
    }
}

type Damage = fn(&mut Case, &mut Rng);

const DAMAGES: [Damage; 8] =
    [flip_bit, set_byte, set_word, drop_record, double_record, cut, lengthen, swap_records];

/// Any number below `n`, and 0 where there is none.
fn pick(n: usize, r: &mut Rng) -> usize {
    r.below(n.max(1) as u64) as usize
}

/// One of the buffers that the call reads.
fn buffer<'a>(case: &'a mut Case, r: &mut Rng) -> &'a mut Vec<u8> {
    let table = case.op == Op::Merge && !case.table.is_empty();
    let roots = case.op != Op::Validate && !case.roots.is_empty();
    match r.below(6) {
        0 if table => &mut case.table,
        1 if roots => &mut case.roots,
        _ => &mut case.nodes,
    }
}

fn flip_bit(case: &mut Case, r: &mut Rng) {
    let bytes = buffer(case, r);
    let at = pick(bytes.len(), r);
    bytes.iter_mut().skip(at).take(1).for_each(|b| *b ^= 1 << r.below(8));
}

fn set_byte(case: &mut Case, r: &mut Rng) {
    let bytes = buffer(case, r);
    let at = pick(bytes.len(), r);
    bytes.iter_mut().skip(at).take(1).for_each(|b| *b = r.next() as u8);
}

fn set_word(case: &mut Case, r: &mut Rng) {
    let n = (case.nodes.len() / NODE) as u32;
    let numbers =
        [0, 1, n.wrapping_sub(1), n, n + 1, (1 << 30) - 1, 1 << 30, u32::MAX];
    let number = numbers[pick(numbers.len(), r)];
    let bytes = buffer(case, r);
    let at = pick(bytes.len() / WORD, r);
    let word = bytes.chunks_exact_mut(WORD).nth(at);
    word.into_iter().for_each(|w| w.copy_from_slice(&number.to_le_bytes()));
}

/// A record out; the table may or may not follow.
fn drop_record(case: &mut Case, r: &mut Rng) {
    let at = pick(case.nodes.len() / NODE, r) * NODE;
    if case.nodes.len() >= at + NODE {
        case.nodes.drain(at..at + NODE);
        recount(case, u32::wrapping_sub, r);
    }
}

/// A record twice; the table may or may not follow.
fn double_record(case: &mut Case, r: &mut Rng) {
    let at = pick(case.nodes.len() / NODE, r) * NODE;
    if let Some(record) = case.nodes.get(at..at + NODE).map(<[u8]>::to_vec) {
        case.nodes.splice(at..at, record);
        recount(case, u32::wrapping_add, r);
    }
}

/// One more or one less in the node count of some row.
fn recount(case: &mut Case, change: fn(u32, u32) -> u32, r: &mut Rng) {
    let at = pick(case.table.len() / ROW, r);
    if r.chance(1, 4) {
        return;
    }
    for row in case.table.chunks_exact_mut(ROW).skip(at).take(1) {
        let count = crate::front::word(&row[..WORD]);
        row[..WORD].copy_from_slice(&change(count, 1).to_le_bytes());
    }
}

/// The end cut off: bytes of table or nodes, words of the roots.
fn cut(case: &mut Case, r: &mut Rng) {
    let whole = case.roots.len() / WORD;
    match r.below(3) {
        0 => case.roots.truncate(pick(whole, r) * WORD),
        1 => case.table.truncate(pick(case.table.len(), r)),
        _ => case.nodes.truncate(pick(case.nodes.len(), r)),
    }
}

/// Something added at the end: bytes to table or nodes, a word to the roots.
fn lengthen(case: &mut Case, r: &mut Rng) {
    let more = 1 + pick(2 * NODE, r);
    match r.below(3) {
        0 => case.roots.extend((r.below(9) as u32).to_le_bytes()),
        1 => case.table.extend((0..1 + more % (2 * ROW)).map(|_| r.below(2) as u8)),
        _ => case.nodes.extend((0..more).map(|_| r.below(3) as u8)),
    }
}

fn swap_records(case: &mut Case, r: &mut Rng) {
    let n = case.nodes.len() / NODE;
    let (a, b) = (pick(n, r), pick(n, r));
    if a < n && b < n {
        (0..NODE).for_each(|i| case.nodes.swap(a * NODE + i, b * NODE + i));
    }
}
