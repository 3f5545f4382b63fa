//! "Terms".

use super::TERMS;
use std::collections::BTreeSet;

/// "A term is cyclic exactly when a walk of one or more edges returns to it."
pub fn cyclic(edges: &BTreeSet<(usize, usize)>) -> Vec<usize> {
    let mut reach = vec![vec![false; TERMS]; TERMS];
    for &(from, to) in edges {
        reach[from][to] = true;
    }
    let terms: BTreeSet<usize> = edges.iter().map(|e| e.0).collect();
    for &via in &terms {
        for &from in &terms {
            if reach[from][via] {
                for to in 0..TERMS {
                    if reach[via][to] {
                        reach[from][to] = true;
                    }
                }
            }
        }
    }
    terms.into_iter().filter(|&t| reach[t][t]).collect()
}

/// `cyclic TERM TERM ..`
pub fn line(terms: &[usize]) -> String {
    let list: String = terms.iter().map(|t| format!(" {t:04X}")).collect();
    format!("cyclic{list}\n")
}
