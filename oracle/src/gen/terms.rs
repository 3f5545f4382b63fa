//! Graphs of terms: edges as two decimal numbers a line, then a line `end`.

use super::Rng;
use std::collections::BTreeSet;

pub fn graph(rng: &mut Rng) -> String {
    let terms = *rng.pick(&[1, 2, 3, 3, 4, 4, 5, 6, 8, 12, 20, 40]);
    let first = *rng.pick(&[0, 0, 0, 256 - terms]);
    let mut edges = BTreeSet::new();
    match rng.below(5) {
        // a ring with chords
        0 => {
            for t in 0..terms {
                edges.insert((t, (t + 1) % terms));
            }
            for _ in 0..rng.below(terms + 1) {
                edges.insert((rng.below(terms), rng.below(terms)));
            }
        }
        // no way back, then perhaps one
        1 => {
            for _ in 0..rng.below(2 * terms + 1) {
                let (a, b) = (rng.below(terms), rng.below(terms));
                if a != b {
                    edges.insert((a.min(b), a.max(b)));
                }
            }
            if rng.chance(50) {
                edges.insert((rng.below(terms), rng.below(terms)));
            }
        }
        // a chain of small rings
        2 => {
            for t in 0..terms {
                edges.insert((t, t / 3 * 3 + (t + 1) % 3));
                if rng.chance(30) {
                    edges.insert((t, rng.from(t, terms - 1)));
                }
            }
        }
        _ => {
            for _ in 0..rng.below(3 * terms + 1) {
                edges.insert((rng.below(terms), rng.below(terms)));
            }
        }
    }
    let mut list: Vec<(usize, usize)> =
        edges.into_iter().map(|(a, b)| ((a + first) % 256, (b + first) % 256)).collect();
    rng.shuffle(&mut list);
    let lines: String = list.iter().map(|(a, b)| format!("{a} {b}\n")).collect();
    lines + "end\n"
}
