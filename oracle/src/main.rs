//! The Rust crate as oracle. `oracle` alone says what it can do; README.md has more.

mod cases;
mod compare;
mod gen;
mod rust_side;
mod sample;
mod spec01;

use compare::Tally;
use sample::SPLIT;
use spec01::{classes, sheets, terms};
use std::io::{Read, Write};
use std::path::Path;
use std::process::ExitCode;

const USAGE: &str = "\
oracle kept [FILE] [IDS]                the Rust's text for the sheets of a stream; outside the domain it has IDS ids
oracle joins [FILE]                     the Rust's answers to the scripts of a stream
oracle graphs [FILE] [SEEDS]            what the Rust finds in graphs of terms: the union over hash seeds
oracle each [FILE] [SEEDS]              the same, every distinct answer
oracle spec check|kept|joins|graphs [FILE]   document 01's answers to the same
oracle folder DIR                       document 01's findings of each file of a folder, by name, a line ---- after each
oracle gen sheets|limits|scripts|graphs SEED COUNT   cases
oracle shares [FILE]                    for each sheet what was compared with the Rust, and what was left out and why
oracle cases [DIR]                      the stored cases against spec01
oracle compare sheets|checks|scripts|graphs INPUT ANSWERS   our program's answers against both
oracle self [SEED [SHEETS LIMITS SCRIPTS GRAPHS]]   spec01 against the Rust
oracle sample DIR SEED                  writes the stored samples
A FILE that is not named, or -, is standard input.
";

fn read(file: Option<&str>) -> String {
    let mut bytes = vec![];
    match file {
        None | Some("-") => {
            std::io::stdin().read_to_end(&mut bytes).expect("standard input");
        }
        Some(file) => bytes = std::fs::read(file).unwrap_or_else(|e| panic!("{file}: {e}")),
    }
    // a sheet may hold any bytes; one that is not ASCII is no digit, whatever stands for it
    String::from_utf8_lossy(&bytes).into_owned()
}

/// The cases of a stream: a line `----` stands between two.
fn split(stream: &str) -> Vec<String> {
    let mut cases = vec![String::new()];
    for line in stream.split_inclusive('\n') {
        if line == SPLIT {
            cases.push(String::new());
        } else {
            cases.last_mut().unwrap().push_str(line);
        }
    }
    cases
}

/// The graphs of a stream: a line `end` closes each.
fn graphs(stream: &str) -> Vec<String> {
    let mut cases = vec![];
    let mut graph = String::new();
    for line in stream.split_inclusive('\n') {
        graph += line;
        if line == "end\n" {
            cases.push(std::mem::take(&mut graph));
        }
    }
    cases
}

fn write(text: &str) {
    // a reader that stops early is no fault of ours
    let _ = std::io::stdout().write_all(text.as_bytes());
}

fn print(tally: &Tally, kind: &str) -> bool {
    let (text, good) = tally.summary(kind);
    write(&text);
    good
}

fn each_case(file: Option<&str>, answer: impl Fn(&str) -> String) {
    let answers: Vec<String> = split(&read(file)).iter().map(|case| answer(case)).collect();
    write(&answers.join(SPLIT));
}

fn rust_graphs(file: Option<&str>, seeds: usize, each: bool) {
    for graph in graphs(&read(file)) {
        let answers = rust_side::graph(&compare::edges(&graph), seeds);
        if each {
            answers.iter().for_each(|answer| write(&terms::line(answer)));
            write(SPLIT);
        } else {
            let union: std::collections::BTreeSet<usize> = answers.into_iter().flatten().collect();
            write(&terms::line(&union.into_iter().collect::<Vec<_>>()));
        }
    }
}

fn compare(kind: &str, input: &str, answers: &str) -> bool {
    let (input, answers) = (read(Some(input)), read(Some(answers)));
    let (cases, mut ours) = match kind {
        "graphs" => (graphs(&input), answers.split_inclusive('\n').map(str::to_string).collect()),
        _ => (split(&input), split(&answers)),
    };
    if ours.len() == cases.len() + 1 && ours.last().is_some_and(|last| last.is_empty()) {
        ours.pop();
    }
    if ours.len() != cases.len() {
        println!("{} cases, {} answers", cases.len(), ours.len());
        return false;
    }
    let mut tally = Tally::default();
    for (case, ours) in cases.iter().zip(&ours) {
        match kind {
            "sheets" => tally.sheet(case, Some(ours)),
            "checks" => tally.findings(case, Some(ours)),
            "scripts" => tally.script(case, Some(ours)),
            _ => tally.graph(case, Some(ours)),
        }
    }
    print(&tally, kind)
}

fn itself(seed: u64, counts: [u64; 4]) -> bool {
    let mut good = true;
    for (kind, count) in ["sheets", "limits", "scripts", "graphs"].iter().zip(counts) {
        let mut tally = Tally::default();
        for n in 0..count {
            let case = gen::case(kind, seed, n).unwrap();
            match *kind {
                "scripts" => tally.script(&case, None),
                "graphs" => tally.graph(&case, None),
                _ => tally.sheet(&case, None),
            }
        }
        good &= print(&tally, kind);
    }
    good
}

fn main() -> ExitCode {
    rust_side::hush();
    let args: Vec<String> = std::env::args().skip(1).collect();
    let args: Vec<&str> = args.iter().map(String::as_str).collect();
    let number = |at: usize, other: u64| -> u64 {
        args.get(at).map_or(other, |n| n.parse().unwrap_or_else(|_| panic!("{n}: no number")))
    };
    let file = args.get(1).copied();
    let good = match args[..] {
        ["kept", ..] => {
            let ids = number(2, compare::IDS_OUTSIDE as u64) as usize;
            each_case(file, |s| rust_side::kept(&sheets::read(s.as_bytes()), ids));
            true
        }
        ["joins", ..] => {
            each_case(file, rust_side::scripts::run);
            true
        }
        ["graphs", ..] | ["each", ..] => {
            rust_graphs(file, number(2, 64) as usize, args[0] == "each");
            true
        }
        ["spec", verb, ..] => {
            let file = args.get(2).copied();
            match verb {
                "check" => each_case(file, |s| sheets::findings(&sheets::read(s.as_bytes()))),
                "kept" => each_case(file, |s| sheets::kept(&sheets::read(s.as_bytes()))),
                "joins" => each_case(file, classes::run),
                "graphs" => graphs(&read(file))
                    .iter()
                    .for_each(|g| write(&terms::line(&terms::cyclic(&compare::edges(g))))),
                _ => write(USAGE),
            }
            true
        }
        ["folder", dir] => {
            let mut files: Vec<_> = std::fs::read_dir(dir).expect("DIR").map(|f| f.expect("a file").path()).collect();
            files.sort();
            for file in files {
                let sheet = read(file.to_str());
                write(&format!("{}{SPLIT}", sheets::findings(&sheets::read(sheet.as_bytes()))));
            }
            true
        }
        ["gen", kind, seed, count] => {
            let (seed, count) = (seed.parse().expect("SEED"), count.parse().expect("COUNT"));
            let cases: Option<Vec<String>> = (0..count).map(|n| gen::case(kind, seed, n)).collect();
            let split = if kind == "graphs" { "" } else { SPLIT };
            write(&cases.map_or(USAGE.to_string(), |cases| cases.join(split)));
            true
        }
        ["shares", ..] => {
            for (n, sheet) in split(&read(file)).iter().enumerate() {
                let mut tally = Tally::default();
                tally.sheet(sheet, None);
                write(&format!("sheet {}: {}\n", n + 1, tally.share()));
            }
            true
        }
        ["cases", ..] => {
            let dir = file.unwrap_or(concat!(env!("CARGO_MANIFEST_DIR"), "/cases"));
            let (count, failed) = cases::run(Path::new(dir));
            failed.iter().for_each(|name| println!("FAILED {name}"));
            println!("cases: {count}, failed: {}", failed.len());
            failed.is_empty()
        }
        ["compare", kind @ ("sheets" | "checks" | "scripts" | "graphs"), input, answers] => {
            compare(kind, input, answers)
        }
        ["self", ..] => {
            itself(number(1, 1), [number(2, 20000), number(3, 1000), number(4, 2000), number(5, 2000)])
        }
        ["sample", dir, seed] => {
            sample::write(Path::new(dir), seed.parse().expect("SEED")).expect("the samples");
            true
        }
        _ => {
            write(USAGE);
            false
        }
    };
    ExitCode::from(!good as u8)
}

#[cfg(test)]
mod tests {
    use super::*;

    const HERE: &str = env!("CARGO_MANIFEST_DIR");

    fn sample(name: &str) -> String {
        read(Some(&format!("{HERE}/samples/{name}")))
    }

    #[test]
    fn the_stored_cases_hold() {
        let (count, failed) = cases::run(&Path::new(HERE).join("cases"));
        assert!(count >= 60 && failed.is_empty(), "{failed:?}");
    }

    #[test]
    fn the_samples_are_as_01_and_the_rust_say() {
        for (kind, input, answers, least) in [
            ("sheets", "sheets.txt", "sheets.kept", 300),
            ("checks", "sheets.txt", "sheets.check", 300),
            ("scripts", "scripts.txt", "scripts.answers", 50),
            ("scripts", "joins-600.script", "joins-600.answers", 1),
            ("graphs", "graphs.txt", "graphs.answers", 50),
        ] {
            let cases = if kind == "graphs" { graphs(&sample(input)) } else { split(&sample(input)) };
            assert!(cases.len() >= least, "{input}");
            let path = |name: &str| format!("{HERE}/samples/{name}");
            assert!(compare(kind, &path(input), &path(answers)), "{input}");
        }
        assert_eq!(sample("joins-600.script").lines().count(), 600);
    }

    #[test]
    fn spec01_and_the_rust_agree_on_new_cases() {
        assert!(itself(77, [500, 50, 100, 100]));
    }

    #[test]
    fn a_wrong_answer_is_found() {
        let sheet =
            "01000100\n020300\n020301\n0300000001000000000000000002\n0500000001\n04000001000101\n06\n";
        let right = sheets::kept(&sheets::read(sheet.as_bytes()));
        for (old, new) in [("total 4", "total 3"), (" e 0A030000 0A030100\n", ""), ("kept", "refused 4 1 0")]
        {
            let mut tally = Tally::default();
            tally.sheet(sheet, Some(&right.replace(old, new)));
            assert_eq!(tally.differences.len(), 2, "against 01 and against the Rust: {old}");
        }
    }
}
