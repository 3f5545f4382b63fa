//! "The domain of comparison: rules kept or refused 4 here whose classes, with children under differing constraints
//! joined too, have no walk back".

use super::loading::{least_equivalence, walk_back, Item, Rule};
use super::sites::{Constraint, Site, Table};
use std::collections::BTreeMap;

/// All items of a rule, also those past the one that was refused; nothing is held to a number of 01.
struct All {
    sites: Vec<Site>,
    equalities: Vec<(usize, usize)>,
    holders: Vec<(usize, Constraint, Vec<usize>)>,
}

fn all(rule: &Rule, sites: &Table) -> All {
    let mut all = All { sites: sites.0.clone(), equalities: vec![], holders: vec![] };
    for item in &rule.items {
        match item {
            Item::Is(site, constraint) => {
                let kids =
                    constraint.children(*site).into_iter().map(|kid| number(&mut all.sites, kid)).collect();
                let holder = (*site, constraint.clone(), kids);
                if !all.holders.contains(&holder) {
                    all.holders.push(holder);
                }
            }
            Item::Equal(a, b) => all.equalities.push((*a, *b)),
        }
    }
    all
}

fn number(sites: &mut Vec<Site>, site: Site) -> usize {
    sites.iter().position(|s| *s == site).unwrap_or_else(|| {
        sites.push(site);
        sites.len() - 1
    })
}

/// Every item names a site that `sites` has.
pub fn resolves(rule: &Rule, sites: &Table) -> bool {
    let known = |&site: &usize| site < sites.0.len();
    rule.items.iter().all(|item| match item {
        Item::Is(site, _) => known(site),
        Item::Equal(a, b) => known(a) && known(b),
    })
}

/// The classes have no walk back, children under differing constraints joined too.
pub fn no_walk_back(rule: &Rule, sites: &Table) -> bool {
    let all = all(rule, sites);
    let lowest = least_equivalence(all.sites.len(), &all.equalities, &all.holders, |_, _| true);
    walk_back(&lowest, &all.holders).is_none()
}

/// Classes as lists of members, for many sites.
#[derive(Default)]
struct Lists {
    class: BTreeMap<usize, usize>,
    members: Vec<Vec<usize>>,
}

impl Lists {
    fn class(&mut self, site: usize) -> usize {
        *self.class.entry(site).or_insert_with(|| {
            self.members.push(vec![site]);
            self.members.len() - 1
        })
    }

    fn join(&mut self, a: usize, b: usize) {
        let (a, b) = (self.class(a), self.class(b));
        let (large, small) = if self.members[a].len() >= self.members[b].len() { (a, b) } else { (b, a) };
        if large != small {
            for site in std::mem::take(&mut self.members[small]) {
                self.class.insert(site, large);
                self.members[large].push(site);
            }
        }
    }

    fn dissolve(&mut self, class: usize) -> Vec<usize> {
        let members = std::mem::take(&mut self.members[class]);
        for site in &members {
            self.class.remove(site);
        }
        members
    }
}

/// How many sites the rounds would make of the rule where every member of a class gets every constraint of the class,
/// counted no further than `most`. The Rust makes no more than these.
pub fn growth(rule: &Rule, sites: &Table, most: usize) -> usize {
    let mut all = all(rule, sites);
    let key = |site: &Site| {
        let mut out = Vec::new();
        site.write(&mut out, &mut |out, s| {
            out.extend((s as u32).to_be_bytes());
            Some(())
        });
        out
    };
    let mut index: BTreeMap<Vec<u8>, usize> =
        all.sites.iter().enumerate().map(|(n, site)| (key(site), n)).collect();
    let mut shapes: BTreeMap<usize, Vec<Constraint>> = BTreeMap::new();
    for (site, constraint, _) in &all.holders {
        shapes.entry(*site).or_default().push(constraint.clone());
    }
    let mut classes = Lists::default();
    for &(a, b) in all.equalities.iter().filter(|(a, b)| a != b) {
        classes.join(a, b);
    }
    let constrained = |members: &Vec<usize>, shapes: &BTreeMap<usize, Vec<Constraint>>| {
        members.iter().any(|s| shapes.contains_key(s))
    };
    while let Some(at) = classes.members.iter().position(|members| constrained(members, &shapes)) {
        let class = classes.dissolve(at);
        let mut given: Vec<Constraint> = vec![];
        for shape in class.iter().filter_map(|s| shapes.get(s)).flatten() {
            if !given.contains(shape) {
                given.push(shape.clone());
            }
        }
        for constraint in &given {
            let mut first: Option<Vec<usize>> = None;
            for &member in &class {
                let mut kids = vec![];
                for kid in constraint.children(member) {
                    let next = all.sites.len();
                    let n = *index.entry(key(&kid)).or_insert(next);
                    if n == next {
                        all.sites.push(kid);
                    }
                    kids.push(n);
                }
                if all.sites.len() > most {
                    return all.sites.len();
                }
                match &first {
                    None => first = Some(kids),
                    Some(first) => first.iter().zip(&kids).for_each(|(&x, &y)| classes.join(x, y)),
                }
            }
        }
        for &member in &class {
            shapes.insert(member, given.clone());
        }
    }
    all.sites.len()
}
