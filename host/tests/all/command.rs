//! The command: replies, exit states, and what becomes of OUT.

use crate::support::{block, command, internal, k4_merged, names, run, table, words, Run, Scratch};
use std::fs;
use std::os::unix::fs::symlink;
use std::path::Path;
use std::process::Stdio;

const FILES: [&str; 4] = ["ids", "nodes", "roots", "table"];

fn printed(status: i32, stdout: &str) -> Run {
    Run {
        status,
        stdout: stdout.to_string(),
        stderr: String::new(),
    }
}

/// Trouble: nothing printed, and one line on standard error that holds a text.
fn troubled(run: &Run, text: &str) {
    assert_eq!((run.status, run.stdout.as_str()), (2, ""), "{run:?}");
    assert_eq!(run.stderr.lines().count(), 1, "{run:?}");
    assert!(
        run.stderr.starts_with("forest: ") && run.stderr.contains(text),
        "{run:?}"
    );
}

fn holds_k4(out: &Path) {
    assert_eq!(names(out), FILES);
    assert_eq!(fs::read(out.join("table")).unwrap(), table(&[(3, 2)]));
    assert_eq!(fs::read(out.join("nodes")).unwrap(), k4_merged());
    assert_eq!(fs::read(out.join("roots")).unwrap(), words(&[2, 1]));
    assert_eq!(fs::read(out.join("ids")).unwrap(), words(&[1, 0, 2, 1]));
}

#[test]
fn k4_byte_by_byte() {
    let scratch = Scratch::new();
    scratch.k4();
    assert_eq!(run(&scratch, "merge IN --out OUT"), printed(0, "0 3 2\n"));
    holds_k4(&scratch.path("out"));
    assert_eq!(scratch.names(), ["in", "out"]);
}

#[test]
fn the_demonstration_data_is_k4() {
    let scratch = Scratch::new();
    let dir = Path::new(env!("CARGO_MANIFEST_DIR")).join("../crates/demo/data");
    let output = command()
        .arg("merge")
        .arg(dir)
        .arg("--out")
        .arg(scratch.path("out"))
        .output()
        .unwrap();
    assert_eq!(output.stdout, b"0 3 2\n");
    holds_k4(&scratch.path("out"));
}

#[test]
fn a_merge_explained_or_quiet() {
    let scratch = Scratch::new();
    scratch.k4();
    let text = "0 3 2\n3 nodes and 2 roots, merged from 4 nodes and 2 roots of 1 forest\n";
    assert_eq!(
        run(&scratch, "merge --explain --out OUT IN"),
        printed(0, text)
    );
    assert_eq!(run(&scratch, "merge IN --out OUT --quiet"), printed(0, ""));
    assert_eq!(
        run(&scratch, "merge IN --out OUT --quiet --limit 1"),
        printed(1, "")
    );
}

#[test]
fn a_merged_folder_is_replaced_and_merges_again() {
    let scratch = Scratch::new();
    scratch.k4();
    assert_eq!(run(&scratch, "merge IN --out OUT").status, 0);
    fs::rename(scratch.path("out"), scratch.path("first")).unwrap();
    fs::rename(scratch.path("in"), scratch.path("out")).unwrap();
    fs::rename(scratch.path("first"), scratch.path("in")).unwrap();
    assert_eq!(run(&scratch, "merge IN --out OUT"), printed(0, "0 3 2\n"));
    assert_eq!(names(&scratch.path("out")), FILES);
    assert_eq!(
        fs::read(scratch.path("out/ids")).unwrap(),
        words(&[0, 1, 2])
    );
    assert_eq!(scratch.names(), ["in", "out"]);
}

#[test]
fn a_refusal_leaves_out_alone() {
    let scratch = Scratch::new();
    scratch.k4();
    let refused = printed(1, "8 0 0\n");
    assert_eq!(run(&scratch, "merge IN --out OUT --limit 1"), refused);
    assert_eq!(scratch.names(), ["in"]);
    assert_eq!(run(&scratch, "merge IN --out OUT").status, 0);
    assert_eq!(run(&scratch, "merge IN --out OUT --limit 1"), refused);
    assert_eq!(
        run(&scratch, "canonicalize IN --out OUT"),
        printed(1, "5 3 0\n")
    );
    holds_k4(&scratch.path("out"));
    assert_eq!(scratch.names(), ["in", "out"]);
}

#[test]
fn trouble_leaves_out_alone() {
    let scratch = Scratch::new();
    let dir = scratch.k4();
    assert_eq!(run(&scratch, "merge IN --out OUT").status, 0);
    fs::remove_file(dir.join("roots")).unwrap();
    troubled(
        &run(&scratch, "merge IN --out OUT"),
        "in/roots: No such file",
    );
    holds_k4(&scratch.path("out"));
    assert_eq!(scratch.names(), ["in", "out"]);
}

#[test]
fn another_folder_is_not_replaced() {
    let scratch = Scratch::new();
    scratch.k4();
    let out = scratch.path("out");
    fs::create_dir(&out).unwrap();
    fs::write(out.join("letter"), "kept").unwrap();
    fs::write(out.join("nodes"), "kept").unwrap();
    troubled(
        &run(&scratch, "merge IN --out OUT"),
        "out/letter: OUT exists",
    );
    assert_eq!(names(&out), ["letter", "nodes"]);
    assert_eq!(fs::read(out.join("nodes")).unwrap(), b"kept");
    fs::remove_dir_all(&out).unwrap();
    fs::create_dir_all(out.join("nodes")).unwrap();
    troubled(
        &run(&scratch, "merge IN --out OUT"),
        "out/nodes: OUT exists",
    );
}

#[test]
fn a_file_a_link_and_dir_itself_are_not_replaced() {
    let scratch = Scratch::new();
    let dir = scratch.k4();
    troubled(&run(&scratch, "merge IN --out IN"), "the same folder");
    fs::write(scratch.path("out"), "kept").unwrap();
    troubled(&run(&scratch, "merge IN --out OUT"), "is no folder");
    fs::remove_file(scratch.path("out")).unwrap();
    symlink(&dir, scratch.path("out")).unwrap();
    troubled(&run(&scratch, "merge IN --out OUT"), "the same folder");
    assert_eq!(names(&dir), ["nodes", "roots", "table"]);
}

#[test]
fn out_needs_a_folder_to_stand_in() {
    let scratch = Scratch::new();
    scratch.k4();
    troubled(&run(&scratch, "merge IN --out /no/such/place"), "/no/such");
    troubled(&run(&scratch, "merge IN --out /"), "OUT must end");
    troubled(&run(&scratch, "merge IN --out .."), "OUT must end");
}

#[test]
fn validate_reads_only_nodes() {
    let scratch = Scratch::new();
    fs::create_dir(scratch.path("in")).unwrap();
    fs::write(scratch.path("in/nodes"), k4_merged()).unwrap();
    let text = "0 3 0\n3 nodes in canonical order\n";
    assert_eq!(run(&scratch, "validate IN --explain"), printed(0, text));
    fs::write(scratch.path("in/nodes"), internal(3, &[0])).unwrap();
    let text = "12 0 0\nForwardReference: node 0 names itself as a child\n";
    assert_eq!(run(&scratch, "validate IN --explain"), printed(1, text));
}

#[test]
fn canonicalize_writes_a_table_with_one_row() {
    let scratch = Scratch::new();
    let dir = scratch.input(
        &[],
        &[internal(3, &[1, 1]), internal(4, &[])].concat(),
        &[0],
    );
    fs::remove_file(dir.join("table")).unwrap();
    let text = "0 2 1\n2 nodes and 1 root, put into canonical order\n";
    assert_eq!(
        run(&scratch, "canonicalize IN --out OUT --explain"),
        printed(0, text)
    );
    let out = scratch.path("out");
    assert_eq!(names(&out), FILES);
    assert_eq!(fs::read(out.join("table")).unwrap(), table(&[(2, 1)]));
    assert_eq!(fs::read(out.join("roots")).unwrap(), words(&[1]));
    assert_eq!(fs::read(out.join("ids")).unwrap(), words(&[1, 0]));
}

#[test]
fn parts_of_records() {
    let scratch = Scratch::new();
    let dir = scratch.k4();
    fs::write(dir.join("roots"), [0; 9]).unwrap();
    troubled(
        &run(&scratch, "merge IN --out OUT"),
        "in/roots: its length, 9 bytes",
    );
    troubled(&run(&scratch, "show IN"), "in/roots: its length, 9 bytes");
    scratch.input(&[0; 7], &[], &[]);
    assert_eq!(run(&scratch, "merge IN --out OUT"), printed(1, "1 1 0\n"));
    scratch.input(&[], &[0; 7], &[]);
    assert_eq!(run(&scratch, "merge IN --out OUT"), printed(1, "1 2 0\n"));
    assert_eq!(run(&scratch, "validate IN"), printed(1, "1 2 0\n"));
}

#[test]
fn the_limit() {
    let scratch = Scratch::new();
    scratch.input(&table(&[(1, 1)]), &block(1), &[0]);
    assert_eq!(run(&scratch, "merge IN --out OUT --limit 1").status, 0);
    for limit in ["0", "4097", "4294967295"] {
        let line = format!("merge IN --out OUT --limit {limit}");
        assert_eq!(run(&scratch, &line), printed(1, "13 0 0\n"));
    }
    for limit in ["", "x", "-1", "1.5", "4294967296"] {
        let line = format!("merge IN --out OUT --limit {limit}");
        troubled(&run(&scratch, &line), "--limit");
    }
}

#[test]
fn arguments() {
    let scratch = Scratch::new();
    scratch.k4();
    for line in [
        "",
        "fell IN",
        "--quiet",
        "validate",
        "validate IN IN",
        "validate IN --out OUT",
        "validate IN --dot",
        "merge IN",
        "merge IN --out",
        "merge IN --out --quiet",
        "merge IN --out OUT --out OUT",
        "merge IN --out OUT --wrong",
        "merge IN --out=OUT",
        "merge IN --out OUT --quiet --explain",
        "canonicalize IN --out OUT --limit 5",
        "show IN --out OUT",
        "show IN --dot --dot",
    ] {
        troubled(&run(&scratch, line), "see forest --help");
    }
    assert_eq!(scratch.names(), ["in"]);
}

#[test]
fn help() {
    let scratch = Scratch::new();
    for line in ["--help", "-h", "merge --help", "show IN --help"] {
        let run = run(&scratch, line);
        assert_eq!((run.status, run.stderr.as_str()), (0, ""));
        assert!(run
            .stdout
            .contains("forest merge crates/demo/data --out merged"));
    }
}

#[test]
fn a_closed_pipe_is_the_end_and_no_trouble() {
    let scratch = Scratch::new();
    let count = 50_000;
    let nodes = block(1).repeat(count as usize);
    let dir = scratch.input(&table(&[(count, 0)]), &nodes, &[]);
    let mut child = command()
        .arg("show")
        .arg(dir)
        .stdout(Stdio::piped())
        .stderr(Stdio::piped())
        .spawn()
        .unwrap();
    drop(child.stdout.take());
    let output = child.wait_with_output().unwrap();
    assert_eq!(output.status.code(), Some(0));
    assert!(output.stderr.is_empty());
}

#[test]
fn the_deepest_merge_has_stack_enough() {
    let scratch = Scratch::new();
    let nodes = crate::support::chain(4096);
    scratch.input(&table(&[(4096, 1)]), &nodes, &[4095]);
    assert_eq!(
        run(&scratch, "merge IN --out OUT"),
        printed(0, "0 4096 1\n")
    );
    assert_eq!(fs::read(scratch.path("out/nodes")).unwrap(), nodes);
}
