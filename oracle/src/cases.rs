//! The stored cases of `cases/`: a sheet with its findings (`.check`) or its kept rules (`.kept`), or a script with its
//! answers. `spec01` must answer each to the letter.

use crate::spec01::{classes, sheets};
use std::fs;
use std::path::Path;

/// How many cases there are, and the names of those that fail.
pub fn run(dir: &Path) -> (usize, Vec<String>) {
    let mut files: Vec<_> = fs::read_dir(dir).expect("the cases").map(|f| f.unwrap().path()).collect();
    files.sort();
    let (mut count, mut failed) = (0, vec![]);
    for file in files {
        let answer = match file.extension().and_then(|e| e.to_str()) {
            Some("check") => sheets::findings(&sheets::read(&beside(&file, "sheet"))),
            Some("kept") => sheets::kept(&sheets::read(&beside(&file, "sheet"))),
            Some("answers") => {
                classes::run(&String::from_utf8(beside(&file, "script")).expect("a script in ASCII"))
            }
            _ => continue,
        };
        count += 1;
        if answer.as_bytes() != fs::read(&file).unwrap() {
            failed.push(format!("{}\n{answer}", file.display()));
        }
    }
    (count, failed)
}

fn beside(file: &Path, extension: &str) -> Vec<u8> {
    fs::read(file.with_extension(extension)).expect("the case's input")
}
