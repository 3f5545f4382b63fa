//! Our archive and the Rust in one process, on the same inputs, by turns. Answers are compared before they are timed.
//! Prints nanoseconds, the best of many, and ours as a share of the Rust's.

mod clock;
#[path = "../../examples/rust/src/lintelbox.rs"]
mod lintelbox;
mod loads;
mod sets;
mod sheets;

use clock::{compare, Pair};
use isle::disjointsets::DisjointSets;
use isle::overlap::inside::report as rust_report;
use isle::recursion::inside::cyclic as rust_cyclic;
use isle::trie_again::inside::Builder;
use isle::trie_again::{Binding, Overlap};
use lintelbox::*;
use sets::{argument, env, graph, report_text, set, Asked, Set};
use std::collections::BTreeSet;
use std::time::Duration;

struct Bench {
    budget: Duration,
    only: Option<String>,
    slower: Vec<String>,
    // Ours and the Rust's of the whole sheets, one after the other.
    whole: Vec<Pair>,
}

impl Bench {
    fn case<A, B>(&mut self, name: &str, ours: impl FnMut() -> A, rust: impl FnMut() -> B) -> Option<Pair> {
        if self.only.as_ref().is_some_and(|only| !name.contains(only.as_str())) {
            return None;
        }
        let pair = compare(self.budget, ours, rust);
        let share = pair.ours / pair.rust;
        println!("| {name} | {} | {} | {share:.2} |", time(pair.ours), time(pair.rust));
        if 1.0 < share {
            self.slower.push(format!("{name} ({share:.2})"));
        }
        Some(pair)
    }

    /// Each sheet counts alike, whatever its size: the mean of the shares as factors.
    fn whole(&self) {
        if !self.whole.is_empty() {
            let sum: f64 = self.whole.iter().map(|p| (p.ours / p.rust).ln()).sum();
            println!("\nall {} kinds of sheets together: {:.2}", self.whole.len(), (sum / self.whole.len() as f64).exp());
        }
    }
}

fn time(ns: f64) -> String {
    if ns < 10_000.0 {
        format!("{ns:.0} ns")
    } else {
        format!("{:.1} µs", ns / 1000.0)
    }
}

/// Numbers that look random and are the same in every run.
struct Numbers(u64);

impl Numbers {
    fn below(&mut self, n: usize) -> usize {
        self.0 = self.0.wrapping_add(0x9E37_79B9_7F4A_7C15);
        let mut z = self.0;
        z = (z ^ (z >> 30)).wrapping_mul(0xBF58_476D_1CE4_E5B9);
        z = (z ^ (z >> 27)).wrapping_mul(0x94D0_49BB_1331_11EB);
        ((z ^ (z >> 31)) % n as u64) as usize
    }
}

fn title(text: &str) {
    println!("\n{text}\n\n| Case | ours | the Rust | ours / the Rust |\n|---|---|---|---|");
}

// ---- classes

fn joins(n: usize, seed: u64) -> Vec<(u16, u16)> {
    let mut numbers = Numbers(seed);
    let mut pairs = vec![];
    while pairs.len() < n {
        let (x, y) = (numbers.below(n) as u16, numbers.below(n) as u16);
        if x != y {
            pairs.push((x, y));
        }
    }
    pairs
}

fn joined(pairs: &[(u16, u16)]) -> (Classes, DisjointSets<u16>) {
    let mut a = [0; ANSWER];
    let (mut ours, mut rust) = (Classes::new(), DisjointSets::default());
    for &(x, y) in pairs {
        assert_eq!(ours.merge(x, y, &mut a), 0);
        rust.merge(x, y);
    }
    (ours, rust)
}

/// One call for each of n sites.
fn each(b: &mut Bench, name: &str, n: usize, mut ours: impl FnMut(u16) -> u64, mut rust: impl FnMut(u16) -> u16) {
    b.case(
        name,
        || (0..n as u16).fold(0, |sum, x| sum ^ ours(x)),
        || (0..n as u16).fold(0, |sum, x| sum ^ rust(x)),
    );
}

fn classes(b: &mut Bench, n: usize) {
    let pairs = joins(n, 1);
    let mut a = [0; ANSWER];
    let (mut ours, mut rust) = joined(&pairs);
    for x in 0..n as u16 {
        ours.find(x, &mut a);
        assert_eq!((a[0] != NONE).then_some(a[0] as u16), rust.find(x));
    }
    assert_eq!(ours.len() as usize, rust.len());
    let mut fresh = Classes::new();
    b.case(
        &format!("{n} joins of {n} sites, from empty"),
        || {
            fresh.clear();
            pairs.iter().for_each(|&(x, y)| {
                fresh.merge(x, y, &mut a);
            });
        },
        || {
            let mut sets = DisjointSets::default();
            pairs.iter().for_each(|&(x, y)| sets.merge(x, y));
            sets
        },
    );
    let name = format!("{n} finds in {n} sites");
    each(
        b,
        &name,
        n,
        |x| {
            ours.find(x, &mut a);
            a[0]
        },
        |x| rust.find(x).unwrap_or(9),
    );
    let name = format!("{n} updating finds in {n} sites");
    each(
        b,
        &name,
        n,
        |x| {
            ours.find_mut(x, &mut a);
            a[0]
        },
        |x| rust.find_mut(x).unwrap_or(9),
    );
    b.case(
        &format!("{n} comparisons of two sites in {n}"),
        || {
            pairs.iter().fold(0, |sum, &(x, y)| {
                ours.in_same_set(x, y ^ 1, &mut a);
                sum + a[0]
            })
        },
        || pairs.iter().fold(0, |sum, &(x, y)| sum + rust.in_same_set(x, y ^ 1) as u64),
    );
}

/// k classes of n / k sites each are made and removed.
fn removals(b: &mut Bench, n: usize, k: usize) {
    let pairs: Vec<(u16, u16)> = (0..n - k).map(|i| (i as u16, (i + k) as u16)).collect();
    let mut a = [0; ANSWER];
    let mut members = [0; SITES];
    let (mut ours, mut rust) = joined(&pairs);
    for x in 0..k as u16 {
        ours.remove_set_of(x, &mut members, &mut a);
        assert_eq!(rust.remove_set_of(x), members[..a[0] as usize]);
    }
    b.case(
        &format!("{k} classes of {} sites, made and removed", n / k),
        || {
            pairs.iter().for_each(|&(x, y)| {
                ours.merge(x, y, &mut a);
            });
            (0..k as u16).for_each(|x| {
                ours.remove_set_of(x, &mut members, &mut a);
            });
        },
        || {
            pairs.iter().for_each(|&(x, y)| rust.merge(x, y));
            (0..k as u16).map(|x| rust.remove_set_of(x).len()).sum::<usize>()
        },
    );
}

// ---- sites

/// Site i is field `i % 8` of a source as a structure: of the site before it, or `wide`, eight fields of one source.
fn sites(b: &mut Bench, n: usize, wide: bool) {
    let source = |i: usize| if wide { (i - 1) / 8 } else { i - 1 };
    let bodies: Vec<Vec<u8>> = (0..n)
        .map(|i| if i == 0 { vec![3, 0] } else { vec![10, (source(i) >> 8) as u8, source(i) as u8, (i % 8) as u8] })
        .collect();
    let (mut m, mut a) = (vec![0; n * SLOT], [0; ANSWER]);
    let mut ours = || {
        bodies.iter().enumerate().fold(0, |sum, (i, body)| {
            add_site(&mut m, i as u16, body, 0, &mut a);
            sum + a[1]
        })
    };
    let rust = || {
        let mut builder = Builder::default();
        let mut ids = vec![builder.site(argument(0))];
        for i in 1..n {
            ids.push(builder.site(Binding::ExtractStruct { source: ids[source(i)], field: (i % 8).try_into().unwrap() }));
        }
        builder
    };
    assert_eq!(ours() as usize, n);
    assert_eq!(rust().rules().bindings.len(), n);
    b.case(&format!("{n} sites added, {}", if wide { "eight a source" } else { "a chain" }), ours, rust);
}

// ---- rules

/// Rules that constrain `width` arguments: `same` alike, `last` differ in the last, `spread` any of twice as many arguments, alike.
fn rules(kind: &str, count: usize, width: usize, priorities: usize) -> Set {
    let mut numbers = Numbers(count as u64);
    let rules: Vec<Asked> = (0..count)
        .map(|i| {
            let mut sites: BTreeSet<usize> = (0..width).collect();
            if kind == "spread" {
                sites.clear();
                while sites.len() < width {
                    sites.insert(numbers.below(2 * width));
                }
            }
            let value = |k: usize| if kind == "last" && k + 1 == width { i as i128 } else { k as i128 };
            let values = sites.iter().map(|&k| (k as u8, value(k))).collect();
            Asked { priority: (i % priorities) as i64, values }
        })
        .collect();
    set(&rules)
}

fn overlaps(b: &mut Bench, kind: &str, count: usize, width: usize) {
    let s = rules(kind, count, width, 1);
    let rust = &s.rust[0].1.rules;
    let mut a = [0; ANSWER];
    let n = s.count as usize;
    for i in 0..n {
        for j in i + 1..n {
            assert_eq!(may_overlap(&s.words, i as u32, j as u32, &mut a), 0);
            let theirs = match rust[i].may_overlap(&rust[j]) {
                Overlap::No => 0,
                Overlap::Yes { subset: false } => 1,
                Overlap::Yes { subset: true } => 2,
            };
            assert_eq!(a[0], theirs);
        }
    }
    b.case(
        &format!("all pairs of {count} rules of {width} constraints, {kind}"),
        || {
            let mut sum = 0;
            for i in 0..n as u32 {
                for j in i + 1..n as u32 {
                    may_overlap(&s.words, i, j, &mut a);
                    sum += a[0];
                }
            }
            sum
        },
        || {
            let mut sum = 0;
            for i in 0..n {
                for j in i + 1..n {
                    sum += (rust[i].may_overlap(&rust[j]) != Overlap::No) as u64;
                }
            }
            sum
        },
    );
}

fn reports(b: &mut Bench, name: &str, sets: &[Set]) {
    let env = env();
    let (mut room, mut a) = (vec![0; REPORT_ROOM], [0; ANSWER]);
    for s in sets {
        assert_eq!(report(&s.words, s.count, 0, &mut room, &mut a), 0);
        let ours = std::str::from_utf8(&room[..a[0] as usize]).unwrap();
        assert_eq!(sorted(ours), sorted(&report_text(&rust_report(&s.rust, &env))));
    }
    b.case(
        name,
        || {
            sets.iter().fold(0, |sum, s| {
                report(&s.words, s.count, 0, &mut room, &mut a);
                sum + a[0]
            })
        },
        || sets.iter().map(|s| rust_report(&s.rust, &env).len()).sum::<usize>(),
    );
}

/// The Rust's lines of one first place come in any order.
fn sorted(text: &str) -> Vec<&str> {
    let mut lines: Vec<&str> = text.lines().collect();
    lines.sort();
    lines
}

// ---- terms

fn terms(b: &mut Bench, name: &str, n: usize, edges: &[(u16, u16)]) {
    let sets = graph(n, edges);
    let mut t = Terms::new();
    let (mut found, mut a) = ([0; TERMS], [0; ANSWER]);
    let mut ours = || {
        t.clear();
        edges.iter().for_each(|&(from, to)| {
            t.add_edge(from, to, &mut a);
        });
        assert_eq!(t.cyclic(&mut found, &mut a), 0);
        found[..a[0] as usize].to_vec()
    };
    let mine = ours();
    assert!(rust_cyclic(&sets).iter().all(|t| mine.contains(&(t.0 as u16))), "ours hold all that the Rust finds");
    b.case(name, ours, || rust_cyclic(&sets));
}

fn edges(n: usize, each: usize) -> Vec<(u16, u16)> {
    let mut numbers = Numbers((n + each) as u64);
    (0..n).flat_map(|a| (0..each).map(|_| (a as u16, numbers.below(n) as u16)).collect::<Vec<_>>()).collect()
}

// ---- loading

fn loading(b: &mut Bench, name: &str, sets: &[loads::Written]) {
    let env = env();
    sets.iter().for_each(|w| loads::agree(w, &env));
    let handed: Vec<loads::Handed> = sets.iter().map(loads::handed).collect();
    let (mut ours, mut kept, mut theirs) = (loads::Ours::new(), vec![], vec![]);
    b.case(
        name,
        || {
            kept.clear();
            handed.iter().map(|set| ours.whole(set, &mut kept)).sum::<usize>()
        },
        || {
            theirs.clear();
            sets.iter().map(|w| loads::rust(w, &env, &mut theirs).1).sum::<usize>()
        },
    );
}

fn loads(b: &mut Bench) {
    title("Whole sets: sites added, rules loaded, the report");
    loading(b, "64 sets of 4 to 8 rules of 3 items", &(0..64).map(loads::small).collect::<Vec<_>>());
    loading(b, "16 rules, a chain of 14 fields under two equal sites", &[loads::deep(14, 16)]);
    loading(b, "16 rules, a class of 4 sites with 8 fields", &[loads::wide(4, 8, 16)]);
    loading(b, "16 rules, a class of 31 sites without fields", &[loads::wide(31, 0, 16)]);
    loading(b, "64 rules of 4 items in a set of 1,017 sites", &[loads::full(64)]);
    loading(b, "64 rules of 3 items, one an equality, in a set of 1,017 sites", &[loads::full_equal(64)]);
    loading(b, "64 rules of 32 integers", &[loads::flat(32, 64)]);
    title("How loading grows");
    for n in [8, 16, 32, 64] {
        loading(b, &format!("{n} rules, a class of 4 sites with 8 fields"), &[loads::wide(4, 8, n)]);
    }
    for n in [2, 4, 8, 14] {
        loading(b, &format!("16 rules, a chain of {n} fields under two equal sites, again"), &[loads::deep(n, 16)]);
    }
}

// ---- sheets

fn sheet(b: &mut Bench, name: &str, sets: &[loads::Written]) {
    let env = env();
    let text = sheets::text(sets);
    sheets::agree(&text, &env);
    let mut ours = sheets::Ours::new();
    let pair = b.case(&format!("sheet: {name}"), || ours.check(&text).len(), || sheets::rust(&text, &env).errors.len());
    b.whole.extend(pair);
}

fn whole(b: &mut Bench) {
    title("Whole sheets: from the bytes to the findings (the Rust's are a list of errors)");
    sheet(b, "64 sets of 4 to 8 rules of 3 items", &(0..64).map(loads::small).collect::<Vec<_>>());
    sheet(b, "one set of 4 rules of 3 items", &[loads::small(0)]);
    sheet(b, "64 rules of 32 integers that differ in the highest site only", &[loads::flat(32, 64)]);
    sheet(b, "16 rules, a chain of 14 fields under two equal sites", &[loads::deep(14, 16)]);
    sheet(b, "16 rules, a class of 4 sites with 8 fields", &[loads::wide(4, 8, 16)]);
    sheet(b, "16 rules, a class of 31 sites without fields", &[loads::wide(31, 0, 16)]);
    sheet(b, "64 rules of 4 items in a set of 1,017 sites", &[loads::full(64)]);
}

fn all(b: &mut Bench) {
    title("Class calls");
    classes(b, 1024);
    classes(b, 32);
    removals(b, 1024, 64);
    removals(b, 32, 4);
    title("Sites added");
    sites(b, 32, false);
    sites(b, 32, true);
    sites(b, 1024, true);
    title("Comparing kept rules");
    for kind in ["same", "last", "spread"] {
        overlaps(b, kind, 64, 32);
        overlaps(b, kind, 64, 4);
    }
    title("Reports (ours writes its lines; the Rust makes a list of errors)");
    for kind in ["same", "last", "spread"] {
        reports(b, &format!("one set of 64 rules of 32 constraints, {kind}"), &[rules(kind, 64, 32, 1)]);
    }
    reports(b, "one set of 64 rules of 32 constraints, spread, 8 priorities", &[rules("spread", 64, 32, 8)]);
    let many: Vec<Set> = (0..64).map(|i| rules(["same", "last", "spread"][i % 3], 4 + i % 5, 3, 1 + i % 2)).collect();
    reports(b, "64 sets of 4 to 8 rules of 3 constraints", &many);
    title("Cyclic terms (ours adds each edge; the Rust finds them in its sets)");
    terms(b, "256 terms, 2 edges each", 256, &edges(256, 2));
    terms(b, "256 terms, 16 edges each", 256, &edges(256, 16));
    terms(b, "a chain of 256 terms", 256, &(0..255).map(|a| (a, a + 1)).collect::<Vec<_>>());
    terms(b, "8 terms, 2 edges each", 8, &edges(8, 2));
}

fn growth(b: &mut Bench) {
    title("How the costs grow");
    for n in [64, 128, 256, 512, 1024] {
        sites(b, n, false);
    }
    for n in [8, 16, 32] {
        reports(b, &format!("report, {n} rules of 32 constraints, spread"), &[rules("spread", n, 32, 1)]);
    }
    for width in [4, 8, 16, 32] {
        reports(b, &format!("report, 64 rules of {width} constraints, spread"), &[rules("spread", 64, width, 1)]);
    }
    for n in [32, 64, 128, 256] {
        terms(b, &format!("cyclic terms, {n} terms, 4 edges each"), n, &edges(n, 4));
    }
}

fn main() {
    let words: Vec<String> = std::env::args().skip(1).collect();
    let ms = words.first().and_then(|w| w.parse().ok()).unwrap_or(100);
    let mut b = Bench { budget: Duration::from_millis(ms), only: words.get(1).cloned(), slower: vec![], whole: vec![] };
    whole(&mut b);
    all(&mut b);
    loads(&mut b);
    growth(&mut b);
    b.whole();
    println!("slower than the Rust: {}", if b.slower.is_empty() { "none".to_string() } else { b.slower.join("; ") });
}
