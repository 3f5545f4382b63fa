//! Our answers against the Rust's and against `spec01`, case by case, with counts.

use crate::rust_side;
use crate::spec01::{classes, sheets, terms};
use std::collections::{BTreeMap, BTreeSet};

/// The page that lists the intended differences; a difference that it doesn't list fails.
const LISTED: &str = include_str!("../../docs/DIFFERENCES.md");

/// How many ids the Rust has for a rule outside the domain, where only its kind of answer is counted.
pub const IDS_OUTSIDE: usize = 2048;
/// Hash seeds tried for each graph.
pub const SEEDS: usize = 16;

#[derive(Default)]
pub struct Tally {
    counts: BTreeMap<(u8, String), usize>,
    pub cases: usize,
    pub differences: Vec<String>,
    first: Option<usize>,
}

impl Tally {
    fn count(&mut self, what: &str, n: usize) {
        if n > 0 {
            *self.counts.entry((0, what.to_string())).or_default() += n;
        }
    }

    /// Something left out of the comparison, or an answer that differs as the page says under this heading.
    fn left_out(&mut self, heading: &str, why: String) {
        if !LISTED.lines().any(|line| line == format!("## {heading}")) {
            self.differ(format!("not listed in docs/DIFFERENCES.md: {heading}"));
        }
        *self.counts.entry((1, format!("{heading}: {why}"))).or_default() += 1;
    }

    fn differ(&mut self, what: String) {
        self.first.get_or_insert(self.cases);
        self.differences.push(format!("case {} (from 1): {what}", self.cases));
    }

    pub fn of(&self, what: &str) -> usize {
        self.counts.get(&(0, what.to_string())).copied().unwrap_or(0)
    }

    /// How many of the rules were compared, and why the others were not.
    pub fn share(&self) -> String {
        let compared = self.of("rules kept") + self.of("rules refused 4");
        let left = self.counts.iter().filter(|((group, _), _)| *group == 1);
        let left: String = left.map(|((_, why), n)| format!("; {n} left out, {why}")).collect();
        format!("{compared} of {} rules compared{left}", self.of("rules"))
    }

    /// The counts and the first differences, to print; true where there are none.
    pub fn summary(&self, kind: &str) -> (String, bool) {
        let mut out = format!("{kind}: {} cases\n", self.cases);
        for ((group, what), n) in &self.counts {
            out += &format!("  {}{what}: {n}\n", ["", "left out, "][*group as usize]);
        }
        for difference in self.differences.iter().take(3) {
            out += &format!("  DIFFERENCE {difference}\n");
        }
        out += &match self.first {
            Some(case) => {
                format!("  differences: {}, the first at case {case}\n", self.differences.len())
            }
            None => "  differences: 0\n".to_string(),
        };
        (out, self.differences.is_empty())
    }

    /// A sheet with what our program's `kept` wrote for it (`None`: `spec01` speaks for us).
    pub fn sheet(&mut self, sheet: &str, ours: Option<&str>) {
        self.cases += 1;
        let reading = sheets::read(sheet.as_bytes());
        let spec = sheets::kept(&reading);
        let ours = ours.unwrap_or(&spec);
        if ours != spec {
            self.differ(format!("not as 01 says\n{sheet}---- ours\n{ours}---- 01\n{spec}"));
        }
        let rust = rust_side::kept(&reading, IDS_OUTSIDE);
        let before = self.differences.len();
        self.blocks(&blocks(ours), &blocks(&rust));
        if self.differences.len() > before {
            self.differences[before] += &format!("\n{sheet}---- ours\n{ours}---- the Rust\n{rust}");
        }
    }

    /// A sheet with what our program's `check` wrote for it. The Rust has no findings of its own.
    pub fn findings(&mut self, sheet: &str, ours: Option<&str>) {
        self.cases += 1;
        let spec = sheets::findings(&sheets::read(sheet.as_bytes()));
        let ours = ours.unwrap_or(&spec);
        self.count("findings", ours.lines().count());
        if ours != spec {
            self.differ(format!("not as 01 says\n{sheet}---- ours\n{ours}---- 01\n{spec}"));
        }
    }

    fn blocks(&mut self, ours: &[Block], rust: &[Block]) {
        if ours.len() != rust.len() {
            return self.differ(format!("{} lines here, {} in the Rust", ours.len(), rust.len()));
        }
        for (a, b) in ours.iter().zip(rust) {
            let words: Vec<&str> = b.head.split(' ').collect();
            match words[0] {
                "rule" => self.rule(a, b, &words),
                "cyclic" => self.cyclic(&a.head, &b.head),
                _ if a.head != b.head => self.differ(format!("{:?} here, {:?} in the Rust", a.head, b.head)),
                "set" => self.count("sets", 1),
                "pair" => {
                    self.count("pairs", 1);
                    self.count(&format!("pairs, {}", words[3]), 1);
                }
                frame if frame.starts_with("1F") => {
                    self.count(&format!("sheets that stop with {}", &frame[10..]), 1)
                }
                frame => self.count(&format!("report frames {}", &frame[..2]), 1),
            }
        }
    }

    fn rule(&mut self, a: &Block, b: &Block, words: &[&str]) {
        let stem = words[..3].join(" ");
        let ours = a.head.strip_prefix(&format!("{stem} ")).unwrap_or("another rule");
        self.count("rules", 1);
        match words[3] {
            "kept" if ours == "kept" && a.inner == b.inner => {
                self.count("rules kept", 1);
                let lines = |c: &str| a.inner.iter().filter(|line| line.starts_with(c)).count();
                self.count("constraints of kept rules", lines(" c"));
                self.count("classes of kept rules", lines(" e"));
            }
            "refused" if ours.starts_with("refused 4 ") => self.count("rules refused 4", 1),
            "left" if format!("{ours} ").starts_with(&format!("refused {} ", words[4])) => {
                let heading = match (words[4], words[5]) {
                    ("2", _) => "Unknown sites",
                    ("4", "-") => "Items past a refusal",
                    ("4", _) if b.grew => "Growth past the ids",
                    ("4", _) => "Walks back under differing constraints",
                    ("5", _) => "Hanging sites",
                    ("6", _) => "Self-containing rules",
                    ("20" | "21" | "22" | "23" | "24" | "25" | "26", _) => "Limits",
                    ("8", _) => "A place used twice",
                    _ => "none",
                };
                let word = words[5].replace('-', "could not be asked");
                self.left_out(heading, format!("refused {} here, the Rust: {word}", words[4]));
            }
            _ => self.differ(format!("{:?} here, {:?} in the Rust", a.head, b.head)),
        }
    }

    fn cyclic(&mut self, ours: &str, rust: &str) {
        let set =
            |line: &str| -> BTreeSet<String> { line.split(' ').skip(1).map(|t| t.to_string()).collect() };
        if !ours.starts_with("cyclic") {
            return self.differ(format!("{ours:?} here, {rust:?} in the Rust"));
        }
        let (ours, rust) = (set(ours), set(rust));
        self.count("cyclic terms", ours.len());
        if !rust.is_subset(&ours) {
            self.differ(format!("cyclic {ours:?} here, {rust:?} in the Rust"));
        }
        for _ in rust.len()..ours.len() {
            self.left_out("Cyclic terms", "a term that the Rust missed".to_string());
        }
    }

    pub fn script(&mut self, script: &str, ours: Option<&str>) {
        self.cases += 1;
        let spec = classes::run(script);
        let ours = ours.unwrap_or(&spec);
        if ours != spec {
            self.differ(format!("not as 01 says\n{script}---- ours\n{ours}---- 01\n{spec}"));
        }
        let rust = rust_side::scripts::run(script);
        if ours.lines().count() != rust.lines().count() {
            return self.differ(format!("answers\n{script}---- ours\n{ours}---- the Rust\n{rust}"));
        }
        let mut before = classes::Classes::default();
        for (line, (a, b)) in script.lines().zip(ours.lines().zip(rust.lines())) {
            let call = classes::Call::read(line);
            match call {
                _ if a == "bad" || b.starts_with("bad") => self.count("lines that are no call", 1),
                _ if b.starts_with("refused 3") && a == b => {
                    self.left_out("A site joined with itself", "the Rust panics".to_string())
                }
                _ if b.starts_with("refused 2") && a == b => {
                    self.left_out("Unknown sites", "the Rust's items have no bound".to_string())
                }
                Some(classes::Call::Find(x)) if a != "none" => self.found(line, &before, x, a, b),
                Some(classes::Call::Merge(..)) if a == b => self.count("joins", 1),
                _ if a == b => self.count("other calls", 1),
                _ => self.differ(format!("{line}: {a:?} here, {b:?} in the Rust\n{script}")),
            }
            call.iter().for_each(|call| drop(before.answer(call)));
        }
    }

    /// A find that answers a site: the same on both sides. The links are not compared; on each side they stay within the bound.
    fn found(&mut self, call: &str, before: &classes::Classes, x: usize, ours: &str, rust: &str) {
        let most = before.most_links(x).unwrap_or(0);
        // `?` stands for links of the Rust that vary with hash order
        let within = |links: &str| links == "?" || links.parse::<usize>().is_ok_and(|links| links <= most);
        match (ours.split_once(' '), rust.split_once(' ')) {
            (Some((site, links)), Some((other, theirs))) if site == other && within(links) && within(theirs) => {
                self.count("other calls", 1);
                self.count("finds, links within the bound", 1);
                if links != theirs {
                    self.left_out("Links", "ours hangs every site passed under the representative".to_string());
                }
            }
            _ => self.differ(format!("{call}: {ours:?} here, {rust:?} in the Rust, at most {most} links")),
        }
    }

    pub fn graph(&mut self, graph: &str, ours: Option<&str>) {
        self.cases += 1;
        let edges = edges(graph);
        let spec = terms::cyclic(&edges);
        let line = terms::line(&spec);
        if ours.is_some_and(|ours| ours != line) {
            self.differ(format!("not as 01 says\n{graph}---- ours\n{}---- 01\n{line}", ours.unwrap()));
        }
        let answers = rust_side::graph(&edges, SEEDS);
        self.count("edges", edges.len());
        self.count("cyclic terms", spec.len());
        let ours: BTreeSet<usize> = spec.into_iter().collect();
        for answer in answers.iter().filter(|answer| !answer.iter().all(|t| ours.contains(t))) {
            self.differ(format!("cyclic {ours:?} here, {answer:?} in the Rust\n{graph}"));
        }
        if answers.iter().any(|answer| answer.len() < ours.len()) {
            self.left_out("Cyclic terms", "a graph where a run of the Rust missed some".to_string());
        } else {
            self.count("graphs where every run of the Rust found all", 1);
        }
    }
}

/// A graph's edges; lines that are none, `end` among them, are passed over.
pub fn edges(graph: &str) -> BTreeSet<(usize, usize)> {
    let edge = |line: &str| {
        let (from, to) = line.split_once(' ')?;
        Some((from.parse().ok()?, to.parse().ok()?))
    };
    graph.lines().filter_map(edge).filter(|&(a, b): &(usize, usize)| a < 256 && b < 256).collect()
}

/// A line of `kept`, with the lines of a kept rule beneath it, sorted as the Rust's are.
struct Block {
    head: String,
    inner: Vec<String>,
    /// No walk back exists, but more sites than the Rust has ids.
    grew: bool,
}

fn blocks(text: &str) -> Vec<Block> {
    let mut blocks: Vec<Block> = vec![];
    for line in text.lines() {
        match blocks.last_mut() {
            Some(block) if line.starts_with(' ') => block.inner.push(in_order(line)),
            _ => {
                let (head, grew) = match line.strip_suffix(" grew") {
                    Some(head) => (head, true),
                    None => (line, false),
                };
                blocks.push(Block { head: head.to_string(), inner: vec![], grew });
            }
        }
    }
    blocks.iter_mut().for_each(|block| block.inner.sort());
    blocks
}

/// A class's members sorted.
fn in_order(line: &str) -> String {
    match line.strip_prefix(" e ") {
        Some(members) => {
            let mut members: Vec<&str> = members.split(' ').collect();
            members.sort();
            format!(" e {}", members.join(" "))
        }
        None => line.to_string(),
    }
}
