//! Forests for Graphviz: one cluster for each.

use crate::parts::{Input, Part};
use forest_merge::record::Node;
use std::io::{self, Write};

/// Prints all forests as one graph.
pub fn print(input: &Input, out: &mut dyn Write) -> io::Result<()> {
    writeln!(out, "digraph forests {{")?;
    for note in input.notes() {
        writeln!(out, "  // note: {note}")?;
    }
    writeln!(out, "  node [shape=box];")?;
    for part in input.parts() {
        print_part(&part, out)?;
    }
    writeln!(out, "}}")
}

fn print_part(part: &Part, out: &mut dyn Write) -> io::Result<()> {
    let forest = part.number;
    writeln!(out, "  subgraph cluster_{forest} {{")?;
    writeln!(out, "    label=\"forest {forest}\";")?;
    for number in 0..part.len() as u32 {
        if let Some(node) = part.node(number) {
            let label = label(number, &node);
            writeln!(out, "    f{forest}n{number} [{label}];")?;
        }
        for (field, child) in part.children(number).into_iter().enumerate() {
            let edge = format!("f{forest}n{number} -> {}", end(part, child, out)?);
            writeln!(out, "    {edge} [label=\"{field}\"];")?;
        }
    }
    for (place, &root) in part.roots.iter().enumerate() {
        writeln!(
            out,
            "    f{forest}r{place} [shape=plaintext, label=\"root {place}\"];"
        )?;
        let end = end(part, root, out)?;
        writeln!(out, "    f{forest}r{place} -> {end};")?;
    }
    writeln!(out, "  }}")
}

fn label(number: u32, node: &Node) -> String {
    match node.fault() {
        Some(fault) => format!("color=red, label=\"{number}\\nbad record\\n{fault}\""),
        None if node.kind < 2 => format!("label=\"{number}\\n{}\\n{}\"", node.class(), node.digest),
        None => format!(
            "label=\"{number}\\n{} of kind {}\\n{}\"",
            node.class(),
            node.kind,
            node.digest
        ),
    }
}

/// The name of a node that an edge leads to; one that is not there is made here.
fn end(part: &Part, number: u32, out: &mut dyn Write) -> io::Result<String> {
    let forest = part.number;
    if part.node(number).is_some() {
        return Ok(format!("f{forest}n{number}"));
    }
    writeln!(
        out,
        "    f{forest}x{number} [color=red, style=dashed, label=\"{number}\\n{}\"];",
        part.absence(number)
    )?;
    Ok(format!("f{forest}x{number}"))
}
