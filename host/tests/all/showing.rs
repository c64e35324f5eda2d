//! `forest show`, on good and on damaged folders.

use crate::support::{block, chain, external, internal, record, run, table, Scratch};

fn shown(table: &[u8], nodes: &[u8], roots: &[u32], line: &str) -> String {
    let scratch = Scratch::new();
    scratch.input(table, nodes, roots);
    let run = run(&scratch, line);
    assert_eq!((run.status, run.stderr.as_str()), (0, ""));
    run.stdout
}

#[test]
fn two_forests() {
    let nodes = [
        external(7),
        internal(3, &[0, 0]),
        block(255),
        internal(4, &[0]),
    ]
    .concat();
    let text = shown(&table(&[(2, 2), (2, 0)]), &nodes, &[1, 0], "show IN");
    let expected = "\
forest 0: 2 nodes, 2 roots
  roots: 1 0
  1 internal of kind 2, digest 3.0.0.0, children 0 0
    0 external, digest 7.0.0.0
    0 ^ shown above
  0 ^ shown above
forest 1: 2 nodes, 0 roots
  not reached:
    0 block, digest ff.0.0.0
    1 internal of kind 2, digest 4.0.0.0, children 0
";
    assert_eq!(text, expected);
}

#[test]
fn a_cycle_ends() {
    let nodes = [internal(3, &[1]), internal(4, &[2, 0]), internal(5, &[1])].concat();
    let text = shown(&table(&[(3, 1)]), &nodes, &[0], "show IN");
    let expected = "\
forest 0: 3 nodes, 1 root
  roots: 0
  0 internal of kind 2, digest 3.0.0.0, children 1
    1 internal of kind 2, digest 4.0.0.0, children 2 0
      2 internal of kind 2, digest 5.0.0.0, children 1
        1 ^ cycle: this is one of the nodes above it
      0 ^ cycle: this is one of the nodes above it
";
    assert_eq!(text, expected);
}

#[test]
fn what_is_out_of_range_or_bad() {
    let nodes = [internal(3, &[9, 1]), record(2, 7, [0, 0], 1)].concat();
    let text = shown(&table(&[(2, 2)]), &nodes, &[0, 4_294_967_295], "show IN");
    let expected = "\
forest 0: 2 nodes, 2 roots
  roots: 0 4294967295
  0 internal of kind 2, digest 3.0.0.0, children 9 1
    9 ! out of range: the forest has 2 nodes
    1 ! bad record: its child count is 7, above 2
  4294967295 ! out of range: the forest has 2 nodes
";
    assert_eq!(text, expected);
}

#[test]
fn files_that_disagree() {
    let mut rows = table(&[(u32::MAX, u32::MAX), (5, 5)]);
    rows.push(0);
    let text = shown(&rows, &[block(1), vec![0; 3]].concat(), &[0, 7], "show IN");
    let expected = "\
note: the table counts 4294967300 nodes, but the file nodes holds 1
note: the table counts 4294967300 roots, but the file roots holds 2
note: the file table has 1 byte behind its last whole row
note: the file nodes has 3 bytes behind its last whole record
forest 0: 4294967295 nodes, 4294967295 roots
  roots: 0 7
  0 block, digest 1.0.0.0
  7 ! missing: the file nodes ends before it
forest 1: 5 nodes, 5 roots
";
    assert_eq!(text, expected);
}

#[test]
fn depth_is_bounded() {
    let text = shown(&table(&[(1000, 1)]), &chain(1000), &[999], "show IN");
    assert_eq!(text.lines().count(), 2 + 64 + 1);
    assert!(text.ends_with(" 935 ... not shown: it lies below level 64\n"));
}

#[test]
fn no_forests() {
    assert_eq!(shown(&[], &[], &[], "show IN"), "no forests\n");
}

#[test]
fn graphviz() {
    let nodes = [external(7), internal(3, &[0, 9])].concat();
    let text = shown(&table(&[(2, 1), (0, 1)]), &nodes, &[1, 0], "show --dot IN");
    let expected = r#"digraph forests {
  node [shape=box];
  subgraph cluster_0 {
    label="forest 0";
    f0n0 [label="0\nexternal\n7.0.0.0"];
    f0n1 [label="1\ninternal of kind 2\n3.0.0.0"];
    f0n1 -> f0n0 [label="0"];
    f0x9 [color=red, style=dashed, label="9\nout of range: the forest has 2 nodes"];
    f0n1 -> f0x9 [label="1"];
    f0r0 [shape=plaintext, label="root 0"];
    f0r0 -> f0n1;
  }
  subgraph cluster_1 {
    label="forest 1";
    f1r0 [shape=plaintext, label="root 0"];
    f1x0 [color=red, style=dashed, label="0\nout of range: the forest has 0 nodes"];
    f1r0 -> f1x0;
  }
}
"#;
    assert_eq!(text, expected);
}
