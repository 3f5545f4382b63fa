//! Stored samples of the Rust's answers, to be replayed without any Rust.

use crate::compare::{edges, Tally, IDS_OUTSIDE};
use crate::gen::{self, Rng};
use crate::rust_side;
use crate::spec01::{classes, sheets, terms};
use std::collections::BTreeSet;
use std::fs;
use std::path::Path;

pub const SPLIT: &str = "----\n";

pub fn write(dir: &Path, seed: u64) -> std::io::Result<()> {
    fs::create_dir_all(dir)?;
    let put = |name: &str, list: &[String], split: &str| fs::write(dir.join(name), list.join(split));

    // sheets wholly inside the domain, with something to compare in each
    let (mut inputs, mut kept, mut findings) = (vec![], vec![], vec![]);
    let mut n = 0;
    while inputs.len() < 400 {
        let kind = if n % 20 == 19 { "limits" } else { "sheets" };
        let sheet = gen::case(kind, seed, n).unwrap();
        n += 1;
        let reading = sheets::read(sheet.as_bytes());
        let answer = sheets::kept(&reading);
        let rust = rust_side::kept(&reading, IDS_OUTSIDE);
        let whole = reading.stopped.is_none() && !rust.contains(" left ") && !rust.contains("diverges");
        let same_terms = rust.lines().last() == answer.lines().last();
        let mut tally = Tally::default();
        tally.sheet(&sheet, None);
        let telling = tally.of("rules kept") >= 2 || tally.of("rules refused 4") >= 1;
        if whole && same_terms && telling && sheet.len() + answer.len() < 6000 {
            assert!(tally.differences.is_empty(), "{:?}", tally.differences);
            findings.push(sheets::findings(&reading));
            inputs.push(sheet);
            kept.push(answer);
        }
    }
    put("sheets.txt", &inputs, SPLIT)?;
    put("sheets.kept", &kept, SPLIT)?;
    put("sheets.check", &findings, SPLIT)?;

    let scripts: Vec<String> = (0..60).map(|n| gen::case("scripts", seed, n).unwrap()).collect();
    let answers: Vec<String> = scripts.iter().map(|s| certain(s)).collect();
    put("scripts.txt", &scripts, SPLIT)?;
    put("scripts.answers", &answers, SPLIT)?;

    let script = gen::calls::long(&mut Rng::new("long", seed, 0), 600);
    fs::write(dir.join("joins-600.answers"), certain(&script))?;
    fs::write(dir.join("joins-600.script"), script)?;

    // the union over hash seeds, taken until it holds every cyclic term
    let graphs: Vec<String> = (0..60).map(|n| gen::case("graphs", seed, n).unwrap()).collect();
    let lines: Vec<String> = graphs.iter().map(|graph| terms::line(&union(graph))).collect();
    put("graphs.txt", &graphs, "")?;
    put("graphs.answers", &lines, "")
}

/// `spec01`'s answers, which must be the Rust's too but for the links.
fn certain(script: &str) -> String {
    let answers = classes::run(script);
    let mut tally = Tally::default();
    tally.script(script, Some(&answers));
    assert!(tally.differences.is_empty(), "{:?}", tally.differences);
    answers
}

fn union(graph: &str) -> Vec<usize> {
    let edges = edges(graph);
    let all = terms::cyclic(&edges);
    let mut found: BTreeSet<usize> = BTreeSet::new();
    for _ in 0..1000 {
        found.extend(rust_side::graph(&edges, 16).into_iter().flatten());
        if found.len() == all.len() {
            break;
        }
    }
    let found: Vec<usize> = found.into_iter().collect();
    assert_eq!(found, all, "what the Rust finds under all seeds tried");
    found
}
