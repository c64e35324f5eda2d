//! The tables, in Markdown. All figures are for one node of the input.

use crate::measure::{Row, Times};

/// A call is fast enough if it takes at most this part of the Rust's time.
const GOAL: f64 = 0.5;

fn grouped(number: usize) -> String {
    let digits = number.to_string();
    let mut out = String::new();
    for (i, digit) in digits.chars().enumerate() {
        if i > 0 && (digits.len() - i) % 3 == 0 {
            out.push(',');
        }
        out.push(digit);
    }
    out
}

fn figure(value: f64) -> String {
    if value < 10.0 { format!("{value:.2}") } else { format!("{value:.1}") }
}

fn line(cells: &[String]) {
    println!("| {} |", cells.join(" | "));
}

fn head(cells: &[&str]) {
    println!("\n| {} |", cells.join(" | "));
    println!("|{}", "---|".repeat(cells.len()));
}

fn name(row: &Row) -> String {
    row.name.replace('-', " ")
}

fn times(row: &Row, times: Times) -> String {
    let nodes = row.nodes as f64;
    format!("{} ({})", figure(times.best / nodes), figure(times.median / nodes))
}

/// Nanoseconds for a node: the best run, and in brackets the median.
pub fn print_times(rows: &[Row]) {
    head(&[
        "input",
        "nodes",
        "ours",
        "Rust, from bytes",
        "Rust, call alone",
        "ours / from bytes",
        "ours / call alone",
        "runs",
    ]);
    for row in rows {
        line(&[
            name(row),
            grouped(row.nodes),
            times(row, row.ours),
            times(row, row.read),
            times(row, row.call),
            format!("{:.2}", row.ours.best / row.read.best),
            format!("{:.2}", row.ours.best / row.call.best),
            row.rounds.clone(),
        ]);
    }
}

/// Our best time without the search; the whole of it where the share is not known.
fn without_search(row: &Row) -> f64 {
    let share = row.merge.as_ref().and_then(|merge| merge.share).unwrap_or(0.0);
    row.ours.best * (1.0 - share)
}

/// The merge with the search set aside, and what the Rust's two stand-ins cost.
pub fn print_search(rows: &[Row]) {
    head(&[
        "input",
        "nodes",
        "merged nodes",
        "share of the search",
        "ours without the search",
        "/ from bytes",
        "/ call alone",
        "fingerprint taken",
        "mark_root in the Rust's time",
        "/ call alone without mark_root",
    ]);
    for row in rows {
        let Some(merge) = &row.merge else { continue };
        let (nodes, rest) = (row.nodes as f64, without_search(row));
        let known = |text: String| if merge.share.is_some() { text } else { "not known".into() };
        line(&[
            name(row),
            grouped(row.nodes),
            grouped(row.result as usize),
            known(format!("{:.2} %", 100.0 * merge.share.unwrap_or(0.0))),
            known(figure(rest / nodes)),
            known(format!("{:.2}", rest / row.read.best)),
            known(format!("{:.2}", rest / row.call.best)),
            merge.fingerprint.into(),
            figure(merge.root_search / nodes),
            known(format!("{:.2}", rest / (row.call.best - merge.root_search))),
        ]);
    }
}

/// Bytes for a node of the input.
pub fn print_memory(rows: &[Row], node: usize) {
    head(&[
        "input",
        "nodes",
        "ours: input",
        "ours: lent",
        "ours: together",
        "Rust: input",
        "Rust: peak of the call",
        "Rust: together",
    ]);
    for row in rows {
        let nodes = row.nodes as f64;
        let roots = 4.0 * row.roots as f64;
        let (ours, rust) = (48.0 * nodes + roots, node as f64 * nodes + roots);
        let each = |bytes: f64| figure(bytes / nodes);
        line(&[
            name(row),
            grouped(row.nodes),
            each(ours),
            each(row.lent as f64),
            each(ours + row.lent as f64),
            each(rust),
            each(row.peak as f64),
            each(rust + row.peak as f64),
        ]);
    }
}

/// Whether ours takes at most half of the Rust's time, a merge without its search.
pub fn print_goals(measured: &[(&str, Vec<Row>)]) {
    head(&["call", "input", "nodes", "against the Rust from bytes", "against its call alone"]);
    for (call, row) in measured.iter().flat_map(|(call, rows)| rows.iter().map(move |row| (call, row))) {
        let rest = without_search(row);
        let verdict = |rust: Times| {
            let ratio = rest / rust.best;
            format!("{} ({ratio:.2})", if ratio <= GOAL { "met" } else { "not met" })
        };
        let cells = [name(row), grouped(row.nodes), verdict(row.read), verdict(row.call)];
        println!("| {call} | {} |", cells.join(" | "));
    }
}
