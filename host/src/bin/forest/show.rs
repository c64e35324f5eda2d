//! Forests as indented text.

use crate::parts::{Input, Part};
use forest_merge::counted;
use forest_merge::record::Node;
use std::io::{self, Write};

/// How many levels of a tree are shown.
const DEPTH: usize = 64;

/// Prints all forests, and where the files disagree.
pub fn print(input: &Input, out: &mut dyn Write) -> io::Result<()> {
    for note in input.notes() {
        writeln!(out, "note: {note}")?;
    }
    let mut none = true;
    for part in input.parts() {
        none = false;
        print_part(&part, out)?;
    }
    if none {
        writeln!(out, "no forests")?;
    }
    Ok(())
}

fn print_part(part: &Part, out: &mut dyn Write) -> io::Result<()> {
    writeln!(
        out,
        "forest {}: {}, {}",
        part.number,
        counted(u64::from(part.counts.nodes), "node"),
        counted(u64::from(part.counts.roots), "root")
    )?;
    print_roots(part, out)?;
    let mut tree = Tree::new(part, out);
    for &root in part.roots {
        tree.print(root)?;
    }
    print_unreached(part, out)
}

fn print_roots(part: &Part, out: &mut dyn Write) -> io::Result<()> {
    if part.roots.is_empty() {
        return Ok(());
    }
    write!(out, "  roots:")?;
    for root in part.roots {
        write!(out, " {root}")?;
    }
    writeln!(out)
}

fn print_unreached(part: &Part, out: &mut dyn Write) -> io::Result<()> {
    let reached = part.reached();
    let mut head = "  not reached:\n";
    let unreached = (0..reached.len()).filter(|&number| !reached[number]);
    for number in unreached {
        let number = number as u32;
        if let Some(node) = part.node(number) {
            writeln!(out, "{head}    {number} {}", told(&node))?;
            head = "";
        }
    }
    Ok(())
}

/// A node's record in words.
fn told(node: &Node) -> String {
    if let Some(fault) = node.fault() {
        return format!("! bad record: {fault}");
    }
    let class = match node.kind {
        0 | 1 => node.class().to_string(),
        kind => format!("{} of kind {kind}", node.class()),
    };
    let children: Vec<String> = node.children().iter().map(u32::to_string).collect();
    match children.is_empty() {
        true => format!("{class}, digest {}", node.digest),
        false => format!(
            "{class}, digest {}, children {}",
            node.digest,
            children.join(" ")
        ),
    }
}

#[derive(Clone, Copy, PartialEq, Eq)]
enum State {
    New,
    Open,
    Shown,
}

/// A step of the walk: a node to show at a level, or one whose children have been shown.
enum Step {
    Show(u32, usize),
    Close(u32),
}

/// The trees of one forest. Each node is shown with its children once.
struct Tree<'a> {
    part: &'a Part<'a>,
    states: Vec<State>,
    out: &'a mut dyn Write,
}

impl<'a> Tree<'a> {
    fn new(part: &'a Part<'a>, out: &'a mut dyn Write) -> Tree<'a> {
        Tree {
            part,
            states: vec![State::New; part.len()],
            out,
        }
    }

    fn print(&mut self, root: u32) -> io::Result<()> {
        let mut steps = vec![Step::Show(root, 1)];
        while let Some(step) = steps.pop() {
            match step {
                Step::Show(number, level) => self.show(number, level, &mut steps)?,
                Step::Close(number) => self.states[number as usize] = State::Shown,
            }
        }
        Ok(())
    }

    fn show(&mut self, number: u32, level: usize, steps: &mut Vec<Step>) -> io::Result<()> {
        let text = match (self.part.node(number), self.states.get(number as usize)) {
            (Some(_), Some(State::Open)) => {
                "^ cycle: this is one of the nodes above it".to_string()
            }
            (Some(_), Some(State::Shown)) => "^ shown above".to_string(),
            (Some(_), Some(State::New)) if level > DEPTH => {
                format!("... not shown: it lies below level {DEPTH}")
            }
            (Some(node), Some(State::New)) => {
                self.open(number, level, steps);
                told(&node)
            }
            _ => format!("! {}", self.part.absence(number)),
        };
        writeln!(
            self.out,
            "{:indent$}{number} {text}",
            "",
            indent = 2 * level
        )
    }

    fn open(&mut self, number: u32, level: usize, steps: &mut Vec<Step>) {
        self.states[number as usize] = State::Open;
        steps.push(Step::Close(number));
        let children = self.part.children(number);
        steps.extend(
            children
                .iter()
                .rev()
                .map(|&child| Step::Show(child, level + 1)),
        );
    }
}
