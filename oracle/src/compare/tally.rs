//! What was seen, family by family and kind by kind, and how it is told.

use std::{collections::BTreeMap, io::Write};

use crate::compare::{
    judge::{Judge, Seen, Verdict, name},
    kinds::{Kind, Named},
    lent::Lent,
};

/// A line of output; that nobody reads it is no reason to stop.
macro_rules! say {
    ($($text:tt)*) => {{
        let _ = writeln!(std::io::stdout(), $($text)*);
    }};
}

/// How often something came up, and its smallest case.
#[derive(Debug, Default, Clone)]
struct Count {
    times: u64,
    smallest: Option<([u64; 4], String)>,
}

impl Count {
    fn add(&mut self, lent: &Lent, text: impl FnOnce() -> String) {
        self.times += 1;
        let size = lent.size();
        if self.smallest.as_ref().is_none_or(|(s, _)| size < *s) {
            self.smallest = Some((size, text()));
        }
    }

    fn example(&self) -> &str {
        self.smallest.as_ref().map_or("", |s| &s.1)
    }
}

#[derive(Debug, Default)]
struct Family {
    name: String,
    cases: u64,
    agreed: u64,
    accepted: u64,
    front: u64,
    differing: BTreeMap<Kind, u64>,
}

/// Everything that was seen in a run.
pub struct Tally {
    judge: Judge,
    named: Vec<Named>,
    families: Vec<Family>,
    kinds: BTreeMap<Kind, Count>,
    misread: Count,
    replies: BTreeMap<u32, u64>,
}

impl Tally {
    pub fn new(judge: Judge, named: Vec<Named>, seed: u64) -> Tally {
        say!("seed {seed}");
        Tally {
            judge,
            named,
            families: vec![],
            kinds: BTreeMap::new(),
            misread: Count::default(),
            replies: BTreeMap::new(),
        }
    }

    /// Judges all cases of a family and prints its line.
    pub fn family(&mut self, name: &str, cases: impl FnOnce(&mut dyn FnMut(Lent))) {
        self.families.push(Family { name: name.into(), ..Family::default() });
        cases(&mut |lent| self.look(&lent));
        if let Some(family) = self.families.last() {
            say!("{}", self.family_line(family));
        }
    }

    fn look(&mut self, lent: &Lent) {
        let seen = self.judge.look(lent);
        *self.replies.entry(seen.reply.0).or_default() += 1;
        if let Some(what) = &seen.misread {
            self.misread.add(lent, || format!("{}\n    {what}", lent.text()));
        }
        if let Verdict::Differs(kind) = &seen.verdict {
            self.kinds.entry(kind.clone()).or_default().add(lent, || lent.text());
        }
        if let Some(family) = self.families.last_mut() {
            family.add(seen);
        }
    }

    /// The table's name of a kind, if it has one.
    fn name_of(&self, kind: &Kind) -> Option<&str> {
        self.place(kind).map(|at| self.named[at].name.as_str())
    }

    fn family_line(&self, f: &Family) -> String {
        let mut line = format!(
            "{}: {} cases, {} agree ({} accepted), {} front, {} differ",
            f.name,
            f.cases,
            f.agreed,
            f.accepted,
            f.front,
            f.differing.values().sum::<u64>()
        );
        let mut differing: Vec<(&Kind, &u64)> = f.differing.iter().collect();
        differing.sort_by_key(|(kind, _)| self.place(kind));
        for (kind, times) in differing {
            line += &format!(", {times} x {}", self.name_of(kind).unwrap_or("UNNAMED"));
        }
        line
    }

    /// The place of a kind in the table; unnamed ones come first.
    fn place(&self, kind: &Kind) -> Option<usize> {
        self.named.iter().position(|n| n.kind == *kind)
    }

    fn print_kinds(&self) {
        say!("\nkinds of difference:");
        let mut kinds: Vec<(&Kind, &Count)> = self.kinds.iter().collect();
        kinds.sort_by_key(|(kind, _)| self.place(kind));
        for (kind, count) in kinds {
            let name = self.name_of(kind).unwrap_or("UNNAMED");
            say!("{name} {} x {kind}\n    smallest: {}", count.times, count.example());
        }
    }

    fn print_unseen(&self) {
        for n in self.named.iter().filter(|n| !self.kinds.contains_key(&n.kind)) {
            say!("{} never came up: {}", n.name, n.kind);
        }
    }

    fn print_replies(&self) {
        let told = |(&no, times): (&u32, &u64)| format!("{times} {}", name((no, 0, 0)));
        let all: Vec<String> = self.replies.iter().map(told).collect();
        say!("\nour replies: {}", all.join(", "));
        let (runs, spent) = (self.judge.runs, self.judge.spent);
        say!("runs of the Rust: {runs}, of which {spent} spent their stack");
    }

    /// Prints all that goes over the whole run; whether nothing is wrong. `full`: no family left out.
    pub fn settle(&self, full: bool) -> bool {
        self.print_replies();
        self.print_kinds();
        if full {
            self.print_unseen();
        }
        let cases: u64 = self.families.iter().map(|f| f.cases).sum();
        let unnamed = self.kinds.keys().filter(|k| self.name_of(k).is_none()).count();
        if self.misread.times > 0 {
            say!("\nnot as document 01 is read, smallest: {}", self.misread.example());
        }
        if unnamed == 0 && self.misread.times == 0 {
            say!("\nno unnamed difference in {cases} cases");
            return true;
        }
        let wrong = self.misread.times;
        say!(
            "\nERROR {unnamed} unnamed kinds, {wrong} answers not as document 01 is read, in {cases} cases"
        );
        false
    }
}

impl Family {
    fn add(&mut self, seen: Seen) {
        self.cases += 1;
        match seen.verdict {
            Verdict::Front => self.front += 1,
            Verdict::Agreed => {
                self.agreed += 1;
                self.accepted += (seen.reply.0 == 0) as u64;
            },
            Verdict::Differs(kind) => *self.differing.entry(kind).or_default() += 1,
        }
    }
}
