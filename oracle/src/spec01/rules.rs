//! "Two rules, many rules".

use super::loading::{Kept, Set};
use std::collections::{BTreeMap, BTreeSet};

#[derive(Clone, Copy, Debug, PartialEq, Eq)]
pub enum Overlap {
    No,
    Yes,
    Subset,
}

impl Overlap {
    pub fn word(self) -> &'static str {
        match self {
            Overlap::No => "no",
            Overlap::Yes => "yes",
            Overlap::Subset => "subset",
        }
    }
}

pub fn compare(a: &Kept, b: &Kept) -> Overlap {
    let (small, large) = if a.constraints.len() <= b.constraints.len() { (a, b) } else { (b, a) };
    let mut subset = small.classes.0.is_empty() && large.classes.0.is_empty();
    for (site, constraint) in &small.constraints {
        match large.constraints.get(site) {
            Some(other) if other != constraint => return Overlap::No,
            Some(_) => {}
            None => subset = false,
        }
    }
    if subset {
        Overlap::Subset
    } else {
        Overlap::Yes
    }
}

/// "Total is constrained plus equal sites."
pub fn total(rule: &Kept) -> usize {
    rule.constraints.len() + rule.classes.members()
}

/// Each pair of kept rules in rule order, the earlier first.
pub fn pairs(set: &Set) -> Vec<(u32, u32, Overlap)> {
    let mut found = vec![];
    for (i, a) in set.kept.iter().enumerate() {
        for b in &set.kept[i + 1..] {
            found.push((a.place, b.place, compare(a, b)));
        }
    }
    found
}

/// The report's frames, without their LF.
pub fn report(set: &Set) -> Vec<String> {
    let mut edges: BTreeMap<u32, BTreeSet<u32>> = BTreeMap::new();
    let mut masked: BTreeMap<u32, Vec<u32>> = BTreeMap::new();
    // in rule order of the masked: for each rule as the lower one, the order of the outer walk
    for low in &set.kept {
        for high in &set.kept {
            if low.place == high.place {
                continue;
            }
            let answer = compare(low, high);
            if low.priority == high.priority && answer != Overlap::No {
                edges.entry(low.place).or_default().insert(high.place);
            }
            if low.priority < high.priority && answer == Overlap::Subset && total(high) <= total(low) {
                masked.entry(high.place).or_default().push(low.place);
            }
        }
    }
    if set.flags & 1 == 1 {
        return vec![];
    }

    let mut frames: Vec<(u32, u8, String)> = vec![];
    // "take the place with most edges, ties to the greatest place, list it and its remaining neighbours, remove it"
    while let Some((&place, _)) = edges.iter().max_by_key(|(place, others)| (others.len(), **place)) {
        let others = edges.remove(&place).unwrap();
        let mut frame = format!("12{:04X}{place:08X}", others.len() + 1);
        for other in &others {
            frame += &format!("{other:08X}");
            let left = edges.get_mut(other).unwrap();
            left.remove(&place);
            if left.is_empty() {
                edges.remove(other);
            }
        }
        frames.push((place, 0, frame));
    }
    for (mask, places) in masked {
        let list: String = places.iter().map(|p| format!("{p:08X}")).collect();
        frames.push((mask, 1, format!("13{mask:08X}{:04X}{list}", places.len())));
    }
    // "Sort by first place; overlap before mask."
    frames.sort();
    frames.into_iter().map(|(_, _, frame)| frame).collect()
}
