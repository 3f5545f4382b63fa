//! "Loading a rule".

use super::sites::{Constraint, Table};
use super::{refuse, Refusal, CONSTRAINED, EQUAL, ITEMS, RULES};
use std::collections::{BTreeMap, BTreeSet};

#[derive(Clone, Debug, PartialEq, Eq)]
pub enum Item {
    Is(usize, Constraint),
    Equal(usize, usize),
}

#[derive(Clone, Debug)]
pub struct Rule {
    pub place: u32,
    pub priority: i64,
    pub items: Vec<Item>,
}

#[derive(Clone, Debug)]
pub struct Kept {
    pub place: u32,
    pub priority: i64,
    pub constraints: BTreeMap<usize, Constraint>,
    pub classes: Partition,
}

#[derive(Clone, Debug, Default)]
pub struct Set {
    pub term: u16,
    pub flags: u8,
    pub sites: Table,
    pub kept: Vec<Kept>,
}

/// Classes of two members or more, without common members. "lone sites not counted as classes"
#[derive(Clone, Debug, Default)]
pub struct Partition(pub Vec<BTreeSet<usize>>);

impl Partition {
    fn take(&mut self, site: usize) -> BTreeSet<usize> {
        match self.0.iter().position(|class| class.contains(&site)) {
            Some(at) => self.0.remove(at),
            None => BTreeSet::from([site]),
        }
    }

    pub fn join(&mut self, a: usize, b: usize) {
        if a == b {
            return;
        }
        let mut class = self.take(a);
        if !class.contains(&b) {
            class.append(&mut self.take(b));
        }
        self.0.push(class);
    }

    pub fn ascending(&self) -> Vec<&BTreeSet<usize>> {
        let mut classes: Vec<_> = self.0.iter().collect();
        classes.sort_by_key(|class| class.first());
        classes
    }

    pub fn members(&self) -> usize {
        self.0.iter().map(|class| class.len()).sum()
    }
}

/// The items as far as they were loaded.
#[derive(Clone, Debug, Default)]
pub struct Loading {
    pub sites: Table,
    pub constraints: BTreeMap<usize, Constraint>,
    pub equalities: Vec<(usize, usize)>,
    pub named: BTreeSet<usize>,
}

impl Loading {
    /// The item that is number `at`, counted from 0.
    fn item(&mut self, item: &Item, at: usize) -> Result<(), Refusal> {
        let known = self.sites.0.len();
        match item {
            Item::Is(site, constraint) => {
                if *site >= known {
                    return refuse(2, &[*site]);
                }
                if constraint.too_many_fields() {
                    return refuse(22, &[constraint.fields() as usize, at]);
                }
                match self.constraints.get(site) {
                    Some(other) if other != constraint => return refuse(4, &[*site, *site]),
                    Some(_) => {}
                    None => {
                        self.sites.add_children(*site, constraint, at)?;
                        self.constraints.insert(*site, constraint.clone());
                    }
                }
                self.named.insert(*site);
            }
            Item::Equal(a, b) => {
                for site in [a, b] {
                    if *site >= known {
                        return refuse(2, &[*site]);
                    }
                }
                if a != b {
                    self.equalities.push((*a, *b));
                }
                self.named.extend([*a, *b]);
            }
        }
        Ok(())
    }

    /// "a named MatchVariant, ExtractStruct or MatchSome site whose source is not constrained, in this rule, so as to
    /// have it as a child"
    fn hangs(&self, site: usize) -> bool {
        let site = &self.sites.0[site];
        site.parent().is_some_and(|parent| match self.constraints.get(&parent) {
            Some(constraint) => !constraint.children(parent).contains(site),
            None => true,
        })
    }

    fn written(&self) -> Partition {
        let mut classes = Partition::default();
        for &(a, b) in &self.equalities {
            classes.join(a, b);
        }
        classes
    }
}

/// The lowest member of each site's class, a lone site being a class of one. Joins the like-numbered children of any
/// two holders that `alike` accepts and that are in one class, until nothing changes.
pub fn least_equivalence(
    sites: usize,
    equalities: &[(usize, usize)],
    holders: &[(usize, Constraint, Vec<usize>)],
    alike: impl Fn(&Constraint, &Constraint) -> bool,
) -> Vec<usize> {
    fn join(lowest: &mut [usize], a: usize, b: usize) {
        let (a, b) = (lowest[a], lowest[b]);
        for low in lowest.iter_mut() {
            if *low == a.max(b) {
                *low = a.min(b);
            }
        }
    }
    let mut lowest: Vec<usize> = (0..sites).collect();
    for &(a, b) in equalities {
        join(&mut lowest, a, b);
    }
    loop {
        let before = lowest.clone();
        for (i, (a, c, kids)) in holders.iter().enumerate() {
            for (b, d, others) in &holders[i + 1..] {
                if lowest[*a] == lowest[*b] && alike(c, d) {
                    for (&x, &y) in kids.iter().zip(others) {
                        join(&mut lowest, x, y);
                    }
                }
            }
        }
        if lowest == before {
            return lowest;
        }
    }
}

/// The lowest class on a walk from class to class, by children of constrained members, that returns to its start.
pub fn walk_back(lowest: &[usize], holders: &[(usize, Constraint, Vec<usize>)]) -> Option<usize> {
    let mut steps: BTreeMap<usize, BTreeSet<usize>> = BTreeMap::new();
    for (site, _, kids) in holders {
        steps.entry(lowest[*site]).or_default().extend(kids.iter().map(|&k| lowest[k]));
    }
    let returns = |&start: &usize| {
        let mut reached = BTreeSet::new();
        let mut todo = vec![start];
        while let Some(class) = todo.pop() {
            for &next in steps.get(&class).into_iter().flatten() {
                if reached.insert(next) {
                    todo.push(next);
                }
            }
        }
        reached.contains(&start)
    };
    steps.keys().copied().find(returns)
}

/// What became of a rule, and the sites that were known when it was decided.
pub struct Loaded {
    pub result: Result<(), Refusal>,
    pub sites: Table,
}

impl Set {
    pub fn load(&mut self, rule: &Rule) -> Loaded {
        let mut loading = Loading { sites: self.sites.clone(), ..Loading::default() };
        let result = self.checked(rule, &mut loading).map(|kept| {
            self.kept.push(kept);
            self.sites = loading.sites.clone();
        });
        Loaded { result, sites: loading.sites }
    }

    fn checked(&self, rule: &Rule, loading: &mut Loading) -> Result<Kept, Refusal> {
        if self.kept.len() >= RULES {
            return refuse(23, &[self.kept.len() + 1]);
        }
        if rule.items.len() > ITEMS {
            return refuse(24, &[rule.items.len()]);
        }
        if self.kept.iter().any(|kept| kept.place == rule.place) {
            return refuse(8, &[rule.place as usize]);
        }
        for (at, item) in rule.items.iter().enumerate() {
            loading.item(item, at)?;
        }
        if let Some(&site) = loading.named.iter().find(|&&site| loading.hangs(site)) {
            return refuse(5, &[site]);
        }
        check_classes(loading)?;
        rounds(loading, rule)
    }
}

fn check_classes(loading: &Loading) -> Result<(), Refusal> {
    let holders: Vec<_> = loading
        .constraints
        .iter()
        .map(|(&site, c)| (site, c.clone(), loading.sites.children(site, c)))
        .collect();
    let lowest = least_equivalence(loading.sites.0.len(), &loading.equalities, &holders, |c, d| c == d);

    // "told are the lowest site s that differs from the lowest constrained member of its class, and that member"
    for (site, constraint, _) in &holders {
        let (first, shape, _) =
            holders.iter().find(|(other, _, _)| lowest[*other] == lowest[*site]).expect("itself at least");
        if shape != constraint {
            return refuse(4, &[*site, *first]);
        }
    }
    match walk_back(&lowest, &holders) {
        Some(site) => refuse(6, &[site]),
        None => Ok(()),
    }
}

/// "Then rounds, over the written equalities joined in item order .. Last, 25 for the constrained sites, 26 for the
/// equal ones." In the rounds the item count is told.
fn rounds(loading: &mut Loading, rule: &Rule) -> Result<Kept, Refusal> {
    let mut constraints = loading.constraints.clone();
    let mut classes = loading.written();
    // "Of the classes with a constrained member, take the one whose lowest member is lowest"
    while let Some((class, constraint)) = classes.ascending().into_iter().find_map(|class| {
        let constraint = class.iter().find_map(|site| constraints.get(site))?;
        Some((class.clone(), constraint.clone()))
    }) {
        // "dissolve it"
        classes.0.retain(|other| *other != class);
        // "ascending, give each member the constraint and its children, by field"
        let mut children = Vec::new();
        for &member in &class {
            constraints.insert(member, constraint.clone());
            children.push(loading.sites.add_children(member, &constraint, rule.items.len())?);
        }
        // "join each child of the lowest member with the others' like-numbered children"
        for others in &children[1..] {
            for (&x, &y) in children[0].iter().zip(others) {
                classes.join(x, y);
            }
        }
    }
    if constraints.len() > CONSTRAINED {
        return refuse(25, &[constraints.len()]);
    }
    if classes.members() > EQUAL {
        return refuse(26, &[classes.members()]);
    }
    Ok(Kept { place: rule.place, priority: rule.priority, constraints, classes })
}
