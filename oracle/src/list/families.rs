//! Families of small cases: each goes through all of something.

use super::{entry::Entry, plan::Group};
use crate::case::Op;

/// The letter of a call, by which names of one family differ.
fn letter(op: Op) -> &'static str {
    &op.word()[..1]
}

fn numbered(op: Op, word: &str, forests: Vec<String>) -> Vec<Entry> {
    let name = |i: usize| format!("{word} {}{}", letter(op), i + 1);
    let one = |(i, f): (usize, &String)| Entry::new(op, &name(i), f);
    forests.iter().enumerate().map(one).collect()
}

fn family(title: &str, op: Op, word: &str, forests: Vec<String>) -> Group {
    Group::new(title, op, numbered(op, word, forests))
}

/// All lists of a length over an alphabet.
fn lists<'a>(alphabet: &[&'a str], length: usize) -> Vec<Vec<&'a str>> {
    let mut all = vec![vec![]];
    for _ in 0..length {
        let longer = |l: &Vec<&'a str>| {
            let l = l.clone();
            alphabet.iter().map(move |a| [&l[..], &[a]].concat()).collect::<Vec<_>>()
        };
        all = all.iter().flat_map(longer).collect();
    }
    all
}

/// All orders of a list.
fn orders<'a>(list: &[&'a str]) -> Vec<Vec<&'a str>> {
    if list.is_empty() {
        return vec![vec![]];
    }
    let led_by = |i: usize| {
        let rest = [&list[..i], &list[i + 1..]].concat();
        orders(&rest).into_iter().map(move |o| [&[list[i]], &o[..]].concat())
    };
    (0..list.len()).flat_map(led_by).collect()
}

/// Two digests that differ in one word, as text.
fn differing(word: usize) -> (String, String) {
    let text = |raised: u64| {
        let w = [0, 1, 2, 3].map(|i| (5 + if i == word { raised } else { 0 }).to_string());
        w.join(".")
    };
    (text(0), text(1))
}

const LEAVES: [&str; 6] = ["E1", "E2", "B1", "I1()", "I1(0)", "I1(1)"];

fn small() -> Vec<Group> {
    let two = |roots: &str| {
        lists(&LEAVES, 2).iter().map(|l| format!("{} :{roots}", l.join(" "))).collect::<Vec<_>>()
    };
    let one = || lists(&LEAVES, 1).into_iter().map(|l| format!("{} : 0", l[0]));
    let all = |roots| one().chain(two(roots)).collect::<Vec<_>>();
    let apart = lists(&["E1", "B1", "I1()", "I1(0)"], 2);
    let apart = apart.iter().map(|l| format!("{} : 0 ; {} : 0", l[0], l[1])).collect();
    vec![
        family("All forests of one and two nodes over six.", Op::Validate, "small", all("")),
        family("The same.", Op::Canonicalize, "small", all(" 1 0")),
        family("The same.", Op::Merge, "small", all(" 1 0")),
        family("Two forests of one node.", Op::Merge, "apart", apart),
    ]
}

fn replacement() -> Vec<Group> {
    let three = orders(&["E7 : 0", "B7 :", "I7() :"]);
    let four = orders(&["E7 I3(0) : 1", "B7 :", "E5 I7(0) :", "B5 : 0"]);
    let texts = three.iter().chain(&four).map(|o| o.join(" ; ")).collect();
    let around = ["B7 E7 : 1", "E7 : 0", "B7 :", "E7 I7(0) : 0"];
    let pairs = lists(&around, 2).iter().map(|l| l.join(" ; ")).collect();
    vec![
        family("A replacement in every order of forests.", Op::Merge, "order", texts),
        family("Holders in the external's own forest and in another.", Op::Merge, "holders", pairs),
    ]
}

fn words() -> Vec<Group> {
    let of = |op, word, form: &dyn Fn(String, String) -> Vec<String>| {
        let texts = (0..4).flat_map(|w| {
            let (low, high) = differing(w);
            form(low, high)
        });
        numbered(op, word, texts.collect())
    };
    let validate =
        of(Op::Validate, "word", &|a, b| vec![format!("E{a} E{b}"), format!("E{b} E{a}")]);
    let canonicalize = of(Op::Canonicalize, "word", &|a, b| {
        vec![format!("E{b} E{a} : 0 1"), format!("E{b} E{a} E{b} :")]
    });
    let merge = of(Op::Merge, "word", &|a, b| {
        vec![
            format!("E{b} E{a} : 0 1"),
            format!("E{a} B{b} : 0 1"),
            format!("B{a} E{a} B{b} : 1"),
            format!("B{a} B{b} : 0 1"),
        ]
    });
    vec![
        Group::new(
            "Digests that differ in one word, the first to the fourth.",
            Op::Validate,
            validate,
        ),
        Group::new("The same.", Op::Canonicalize, canonicalize),
        Group::new("The same: order, no replacement, a replacement, no joining.", Op::Merge, merge),
    ]
}

fn equality() -> Vec<Group> {
    let kinds = ["I7()", "I7k254()", "I7k255()"];
    let mut texts: Vec<String> =
        lists(&kinds, 2).iter().map(|l| format!("{} {} : 0 1", l[0], l[1])).collect();
    texts.extend(kinds.iter().map(|k| format!("E7 {k} : 0 1")));
    let forms = ["B7", "E7", "I7()", "I7(0)", "I7(0,1)", "I7(1,0)", "I7(0,0)", "I7k3(0)"];
    let pair = |i: usize, j: usize| format!("B1 B2 {} {} : 2 3", forms[i], forms[j]);
    let pairs = (0..forms.len()).flat_map(|i| (i..forms.len()).map(move |j| pair(i, j))).collect();
    let kept = kinds.iter().map(|k| k.replace("()", "(1)") + " I8k255() E7 : 0").collect();
    vec![
        family("One digest in kinds 2, 254 and 255.", Op::Merge, "kinds", texts),
        family("One digest, the same or another kind and children.", Op::Merge, "equal", pairs),
        family("Kinds are kept.", Op::Canonicalize, "kinds", kept),
    ]
}

fn roots() -> Vec<Group> {
    let of = |n| lists(&["0", "1", "2"], n);
    let two = (0..3).flat_map(of).chain(orders(&["0", "1", "2"]));
    let texts = two.map(|r| format!("B1 B2 I3(1,0) : {}", r.join(" "))).collect();
    let lists = lists(&["0", "1"], 3);
    let range = |r: &Vec<&str>| format!("B1 : {} {} ; B2 : {}", r[0], r[1], r[2]);
    let ranges = lists.iter().skip(1).map(range).collect();
    let places = ["1", "0 1", "1 0", "0 0 5", "5 1", "4294967295"];
    let places = places.iter().map(|r| format!("B1 : {r}")).collect();
    vec![
        family("Lists of roots.", Op::Merge, "roots", texts),
        family("Roots out of range.", Op::Merge, "far root", ranges),
        family("Roots out of range.", Op::Canonicalize, "far root", places),
    ]
}

fn children() -> Vec<Group> {
    let first = ["I1(1)", "I1(2)", "I1(1,2)", "I1(2,1)", "I1(1,1)"];
    let second = ["I2()", "I2(0)", "I2(2,2)", "I2(0,2)"];
    let form = |a: &str| second.map(|b| format!("{a} {b} I3() : 0"));
    let texts: Vec<String> = first.iter().flat_map(|a| form(a)).collect();
    let title = "Lists of children, also named twice, and cycles.";
    vec![
        family(title, Op::Canonicalize, "children", texts.clone()),
        family("The same.", Op::Merge, "children", texts),
    ]
}

fn far_children() -> Vec<Group> {
    let pairs = lists(&["1", "2", "9"], 2);
    let form = |l: &Vec<&str>| format!("I1({},{}) B2 :", l[0], l[1]);
    let far: Vec<String> = pairs.iter().skip(1).map(form).collect();
    let with = |root: &str| far.iter().map(|f| format!("B3 : 0 ; {f} {root}")).collect();
    vec![
        family("Children out of range.", Op::Canonicalize, "far child", far.clone()),
        family("Children out of range, reached.", Op::Merge, "far child", with("0")),
        family("Children out of range, not reached.", Op::Merge, "unseen child", with("1")),
    ]
}

fn duplicates() -> Vec<Group> {
    let all = orders(&["E5", "E5", "E9", "E9"]).into_iter().map(|o| o.join(" ") + " :");
    let mut texts: Vec<String> = all.collect();
    texts.sort();
    texts.dedup();
    vec![family("Two digests twice.", Op::Canonicalize, "twice", texts)]
}

fn chain(length: usize) -> String {
    let above = (1..length).map(|i| format!(" I{}({})", i + 1, i - 1)).collect::<String>();
    format!("B1{above} : {}", length - 1)
}

fn limited(name: String, forests: &str, limit: usize) -> Entry {
    Entry::new(Op::Merge, &name, forests).with_limit(limit as u32)
}

fn depth() -> Vec<Group> {
    let around = |n: usize| {
        (n - 1..=n + 1).map(move |l| limited(format!("chain {n}, limit {l}"), &chain(n), l))
    };
    let chains = (1..=6).flat_map(around).collect();
    let hops = "E2 I9(0) : 1 ; E3 I2(0) : ; B3 :";
    let cycle = "E1 I2(0) : 1 ; E2 I1(0) : 0";
    let under = |name: &str, forests: &str| {
        let one = |l| limited(format!("{name}, limit {l}"), forests, l);
        (1..=6).map(one).collect::<Vec<_>>()
    };
    let order = |o: Vec<&str>| {
        let forests = format!("B1 I2(0) I3(1) : {}", o.join(" "));
        let name = format!("roots {}", o.join(" "));
        [1, 2].map(|l| limited(format!("{name}, limit {l}"), &forests, l))
    };
    let finished = orders(&["0", "1", "2"]).into_iter().flat_map(order).collect();
    vec![
        Group::new("Chains, and limits around their length.", Op::Merge, chains),
        Group::new("A chain of five through two replacements.", Op::Merge, under("hops", hops)),
        Group::new("A cycle of four across two forests.", Op::Merge, under("around", cycle)),
        Group::new("A finished node is passed over under any limit.", Op::Merge, finished),
    ]
}

fn room() -> Vec<Group> {
    let cases = |name: &str, forests: &str, nodes: usize, bytes: &[usize], roots: &[usize]| {
        let base = Entry::new(Op::Merge, name, forests);
        let lent: usize = base.forests.iter().map(|f| f.1.len()).sum();
        let rows = 8 * base.forests.len();
        let one = |&(b, r): &(usize, usize)| {
            let mut e = base.clone();
            e.name = format!("{name}, {b} and {r}");
            e.with_lengths([rows, 48 * nodes, lent, b, r, nodes, 16 * nodes])
        };
        let all = bytes.iter().flat_map(|&b| roots.iter().map(move |&r| (b, r)));
        all.collect::<Vec<_>>().iter().map(one).collect::<Vec<_>>()
    };
    let joined = "E7 B7 I3(0,1) : 2 0 1";
    let two = cases("joined", joined, 3, &[0, 48, 95, 96, 144], &[0, 1, 2, 3]);
    let apart = cases("apart", "B1 : 0 ; B2 B1 : 0 1", 3, &[48, 96, 97], &[1, 2, 3]);
    let nothing = cases("nothing", "B1 :", 1, &[0, 48], &[0, 1]);
    vec![
        Group::new(
            "Room from none to one over: bytes of node output, words of root output.",
            Op::Merge,
            two,
        ),
        Group::new("The same over two forests.", Op::Merge, apart),
        Group::new("The same where nothing is merged.", Op::Merge, nothing),
    ]
}

/// Cases that differ from good lengths in one buffer.
fn lent_wrong(forests: &str, op: Op, right: [usize; 7], wrong: &[(usize, &[usize])]) -> Vec<Entry> {
    let by = |buffer: usize, length: usize| {
        let name = format!("buffer {}{buffer}, {length} for {}", letter(op), right[buffer - 1]);
        let mut lengths = right;
        lengths[buffer - 1] = length;
        Entry::new(op, &name, forests).with_lengths(lengths)
    };
    wrong.iter().flat_map(|&(b, all)| all.iter().map(move |&l| by(b, l))).collect()
}

fn lent() -> Vec<Group> {
    let merge: [(usize, &[usize]); 5] = [
        (1, &[0, 7, 9, 16]),
        (2, &[96, 143, 145, 192]),
        (3, &[1, 3]),
        (6, &[2, 4]),
        (7, &[47, 49]),
    ];
    let canonicalize: [(usize, &[usize]); 5] =
        [(2, &[143, 145]), (4, &[96, 143, 145]), (5, &[1, 3]), (6, &[2, 4]), (7, &[47, 49])];
    let validate: [(usize, &[usize]); 1] = [(2, &[0, 1, 47, 48, 49, 95, 97])];
    let of = |title, op, forests, right, wrong| {
        Group::new(title, op, lent_wrong(forests, op, right, wrong))
    };
    let title = "One buffer of another length than is asked for.";
    vec![
        of(title, Op::Merge, "E7 B7 I3(0,1) : 2 0", [8, 144, 2, 144, 2, 3, 48], &merge),
        of(
            "The same.",
            Op::Canonicalize,
            "B7 E7 I3(0,1) : 2 0",
            [0, 144, 2, 144, 2, 3, 48],
            &canonicalize,
        ),
        of("The same.", Op::Validate, "E7 B7", [0, 96, 0, 0, 0, 0, 0], &validate),
    ]
}

fn records() -> Vec<Group> {
    let bad = [
        "R0.1.0.0",
        "R0.0.0.1",
        "R1.2.0.0",
        "R1.0.1.0",
        "R2.0.0.1",
        "R2.1.0.1",
        "R2.3.0.0",
        "R256.0.0.0",
    ];
    let with = |end: &str| bad.iter().map(|b| format!("B1 {b}{end}")).collect();
    vec![
        family("Bad records.", Op::Validate, "record", with("")),
        family("Bad records.", Op::Canonicalize, "record", with(" : 0")),
        family("Bad records that no root reaches.", Op::Merge, "record", with(" : 0")),
    ]
}

pub fn all() -> Vec<Group> {
    [
        small(),
        replacement(),
        words(),
        equality(),
        roots(),
        children(),
        far_children(),
        duplicates(),
        depth(),
        room(),
        lent(),
        records(),
    ]
    .concat()
}
