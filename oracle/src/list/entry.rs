//! A case of the list before it has an answer: as text, and as the bytes that are lent.

use crate::{
    case::{Case, Op, Out, Rec, Reply},
    front::Forest,
};

/// The limit where a case gives none.
pub const LIMIT: u32 = 256;
/// What the crate `cases` takes: nodes and forests of a case, and words and bytes of a buffer.
const NODES: usize = 16;
const FORESTS: usize = 16;
const WORDS: usize = 288;
const BYTES: usize = 768;
const TABLE_BYTES: usize = 8208;

#[derive(Debug, Clone)]
pub struct Entry {
    pub name: String,
    pub op: Op,
    pub forests: Vec<Forest>,
    pub limit: u32,
    /// The lengths of buffers 1 to 7, where a case gives them.
    pub lengths: Option<[usize; 7]>,
    /// The words of the table, where it is not that of the forests.
    pub rows: Option<Vec<u32>>,
}

fn parse_node(text: &str) -> Option<Rec> {
    let Some(fields) = text.strip_prefix('R') else {
        return Rec::parse_short(text);
    };
    let f = fields.split('.').map(|x| x.parse().ok()).collect::<Option<Vec<u32>>>()?;
    let [kind, count, first, second] = f[..] else {
        return None;
    };
    Some(Rec { kind, count, child: [first, second], digest: [0; 4] })
}

fn node_text(node: &Rec) -> String {
    if !node.bad() {
        return node.short();
    }
    assert!(node.digest == [0; 4], "a bad record with a digest has no text");
    format!("R{}.{}.{}.{}", node.kind, node.count, node.child[0], node.child[1])
}

fn numbers(text: &str) -> Option<Vec<u32>> {
    text.split_whitespace().map(|x| x.parse().ok()).collect()
}

fn parse_forest(text: &str) -> Option<Forest> {
    let (nodes, roots) = text.split_once(':').unwrap_or((text, ""));
    let nodes = nodes.split_whitespace().map(parse_node).collect::<Option<Vec<_>>>()?;
    Some((nodes, numbers(roots)?))
}

fn words_text(words: &[u32]) -> String {
    let one = |&w: &u32| {
        if w == u32::MAX { "-".to_string() } else { w.to_string() }
    };
    words.iter().map(one).collect::<Vec<_>>().join(" ")
}

fn plain_text(words: &[u32]) -> String {
    words.iter().map(u32::to_string).collect::<Vec<_>>().join(" ")
}

fn nodes_text(nodes: &[Rec]) -> String {
    nodes.iter().map(node_text).collect::<Vec<_>>().join(" ")
}

/// Parts with colons between them; an empty part leaves no blank behind.
fn parts(list: &[String]) -> String {
    let joined = list.join(" : ");
    joined.split_whitespace().collect::<Vec<_>>().join(" ")
}

impl Entry {
    /// A case with room enough, under the usual limit.
    pub fn new(op: Op, name: &str, forests: &str) -> Entry {
        Entry::given(op, name, forests, "", "").unwrap_or_else(|| panic!("{name}: unreadable"))
    }

    /// A case with its numbers (Merge: the limit and seven lengths; Canonicalize: the lengths of
    /// buffers 2, 4, 5, 6, 7; Validate: the length of buffer 2) and the words of its table.
    pub fn given(op: Op, name: &str, forests: &str, given: &str, rows: &str) -> Option<Entry> {
        let forests = forests.split(';').map(parse_forest).collect::<Option<Vec<_>>>()?;
        let g = numbers(given)?;
        let n = g.iter().map(|&x| x as usize).collect::<Vec<_>>();
        let roots = forests[0].1.len();
        let (limit, lengths) = match (op, &n[..]) {
            (_, []) => (LIMIT, None),
            (Op::Validate, &[b]) => (LIMIT, Some([0, b, 0, 0, 0, 0, 0])),
            (Op::Canonicalize, &[b, d, e, f, w]) => (LIMIT, Some([0, b, roots, d, e, f, w])),
            (Op::Merge, &[_]) => (g[0], None),
            (Op::Merge, &[_, a, b, c, d, e, f, w]) => (g[0], Some([a, b, c, d, e, f, w])),
            _ => return None,
        };
        let rows = if rows.trim().is_empty() { None } else { Some(numbers(rows)?) };
        Some(Entry { name: name.trim().into(), op, forests, limit, lengths, rows })
    }

    /// Reads `name | forests | numbers | table`.
    pub fn read(op: Op, line: &str) -> Option<Entry> {
        let s: Vec<&str> = line.split('|').collect();
        let at = |i: usize| s.get(i).copied().unwrap_or("");
        Entry::given(op, at(0), at(1), at(2), at(3))
    }

    pub fn with_limit(mut self, limit: u32) -> Entry {
        self.limit = limit;
        self
    }

    pub fn with_lengths(mut self, lengths: [usize; 7]) -> Entry {
        self.lengths = Some(lengths);
        self
    }

    /// Whether the crate `cases` can lend all of it.
    pub fn fits(&self) -> bool {
        let nodes: usize = self.forests.iter().map(|f| f.0.len()).sum();
        let roots: usize = self.forests.iter().map(|f| f.1.len()).sum();
        let lengths = self.lengths.unwrap_or([0; 7]);
        let most = [TABLE_BYTES, BYTES, WORDS, BYTES, WORDS, WORDS, WORDS];
        nodes <= NODES
            && roots < WORDS
            && (1..=FORESTS).contains(&self.forests.len())
            && (0..7).all(|i| lengths[i] <= most[i])
    }

    /// The bytes that are lent: past what the text gives there are zeros, as in `cases`.
    pub fn case(&self) -> Case {
        let mut case = Case::from_forests(&self.name, self.op, self.limit as u64, &self.forests);
        if let Some(rows) = &self.rows {
            case.table = rows.iter().flat_map(|w| w.to_le_bytes()).collect();
        }
        if let Some(l) = self.lengths {
            case.table.resize(l[0], 0);
            case.nodes.resize(l[1], 0);
            case.roots.resize(4 * l[2], 0);
        }
        case
    }

    pub fn forests_text(&self) -> String {
        let one = |f: &Forest| parts(&[nodes_text(&f.0), plain_text(&f.1)]);
        match self.op {
            Op::Validate => nodes_text(&self.forests[0].0),
            _ => self.forests.iter().map(one).collect::<Vec<_>>().join(" ; "),
        }
    }

    fn numbers_text(&self) -> String {
        let of = |l: &[usize]| l.iter().map(usize::to_string).collect::<Vec<_>>().join(" ");
        match (self.op, self.lengths) {
            (Op::Validate, Some(l)) => of(&l[1..2]),
            (Op::Canonicalize, Some(l)) => format!("{} {}", l[1], of(&l[3..])),
            (Op::Merge, Some(l)) => format!("{} {}", self.limit, of(&l)),
            (Op::Merge, None) if self.limit != LIMIT => self.limit.to_string(),
            _ => String::new(),
        }
    }

    /// The line of the list, with an answer and the name that tells whose it is.
    pub fn line(&self, name: &str, out: &Out) -> String {
        let mut sections = vec![name.to_string(), self.forests_text(), out.reply_text()];
        if self.op != Op::Validate {
            let accepted = matches!(out.reply, Reply::No("0", ..));
            let all = [nodes_text(&out.nodes), plain_text(&out.roots), words_text(&out.map)];
            sections.push(if accepted { parts(&all) } else { String::new() });
        }
        sections.push(self.numbers_text());
        sections.push(self.rows.as_deref().map_or(String::new(), plain_text));
        while sections.last().is_some_and(String::is_empty) {
            sections.pop();
        }
        let line = sections.join(" | ");
        line.split_whitespace().collect::<Vec<_>>().join(" ")
    }
}
