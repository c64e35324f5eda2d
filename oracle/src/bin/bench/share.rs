//! The share of our merge's time that goes into the linear search for an equal earlier node, by perf's samples.

use std::{
    io::{BufRead, BufReader},
    process::{Child, Command, Stdio},
    thread,
    time::Duration,
};

/// The function that the search is inlined into.
const SEARCH: &str = "merger::merging::Walk::push";

/// The merge's other functions, and what it calls: what else the samples show is not the merge.
const MERGE: [&str; 4] = ["forest_merge", "open_node", "sort_halves", "memset"];

/// The samples a second: many, because the search may leave only some thousandths of the time to the rest.
pub const FINE: u32 = 19_997;

/// For a run of many minutes.
pub const COARSE: u32 = 1_999;

/// perf wants a moment to attach itself.
const ATTACH: Duration = Duration::from_millis(500);

fn attach(data: &str, rate: u32) -> Option<Child> {
    let own = std::process::id().to_string();
    let perf = Command::new("perf")
        .args(["record", "-q", "-F", &rate.to_string(), "-o", data, "-p", &own])
        .stdout(Stdio::null())
        .stderr(Stdio::null())
        .spawn()
        .ok()?;
    thread::sleep(ATTACH);
    Some(perf)
}

/// perf writes its file when it is interrupted.
fn detach(mut perf: Child) -> Option<()> {
    let id = perf.id().to_string();
    Command::new("kill").args(["-INT", &id]).status().ok()?;
    perf.wait().ok()?;
    Some(())
}

/// The share of the samples, line by line: they may be millions.
fn counted(data: &str) -> Option<f64> {
    let mut script = Command::new("perf")
        .args(["script", "-F", "ip,sym", "-i", data])
        .stdout(Stdio::piped())
        .stderr(Stdio::null())
        .spawn()
        .ok()?;
    let (mut search, mut others) = (0, 0);
    for line in BufReader::new(script.stdout.take()?).lines().map_while(Result::ok) {
        search += u64::from(line.contains(SEARCH));
        others += u64::from(MERGE.iter().any(|name| line.contains(name)));
    }
    script.wait().ok()?;
    (search + others > 0).then(|| search as f64 / (search + others) as f64)
}

/// Runs our calls and says which share of their samples fell into the search; none where perf does not work.
pub fn sampled<T>(rate: u32, calls: impl FnOnce() -> T) -> (T, Option<f64>) {
    let data = std::env::temp_dir().join(format!("forest-bench-{}.data", std::process::id()));
    let data = data.to_string_lossy().into_owned();
    let perf = attach(&data, rate);
    let result = calls();
    let share = perf.and_then(detach).and_then(|()| counted(&data));
    let _ = std::fs::remove_file(&data);
    (result, share)
}
