//! Small sheets that use every kind of site, every constraint and every check of 01.
//!
//! A rule is mostly written after an input: its constraints are shapes of the input's values, its equalities hold in
//! it, so that the rule is kept and its classes meet constraints. Some rules then get an item that does not fit.

use super::Rng;
use crate::spec01::loading::{Item, Rule, Set};
use crate::spec01::sheets::hex;
use crate::spec01::sites::{Constraint, Site, Table};
use std::collections::BTreeMap;

/// The lines of a sheet.
#[derive(Default)]
pub struct Lines(pub Vec<String>);

impl Lines {
    pub fn begin(&mut self, term: usize, flags: u8) {
        self.0.push(format!("01{term:04X}{flags:02X}"));
    }

    pub fn site(&mut self, site: &Site) {
        self.0.push(format!("02{}", hex(&site.body())));
    }

    pub fn rule(&mut self, rule: &Rule) {
        let Rule { place, priority, items } = rule;
        self.0.push(format!("03{place:08X}{priority:016X}{:02X}", items.len()));
        for item in items {
            self.0.push(match item {
                Item::Is(site, c) => format!("04{site:04X}{}", hex(&c.body())),
                Item::Equal(a, b) => format!("05{a:04X}{b:04X}"),
            });
        }
    }

    pub fn end(&mut self) {
        self.0.push("06".to_string());
    }

    pub fn text(&self) -> String {
        self.0.iter().map(|line| format!("{line}\n")).collect()
    }
}

#[derive(Clone, Debug, PartialEq, Eq)]
enum Value {
    Leaf(Constraint),
    Variant { ty: u16, variant: u16, fields: Vec<Value> },
    Struct { ty: u16, fields: Vec<Value> },
    Absent,
    Present(Box<Value>),
}

impl Value {
    fn any(rng: &mut Rng, depth: usize) -> Value {
        if depth == 0 || rng.chance(30) {
            return match rng.below(7) {
                0 | 1 => Value::Leaf(Constraint::ConstBool { ty: 1, val: rng.below(2) as u8 }),
                2 | 3 => Value::Leaf(Constraint::ConstInt { ty: rng.from(1, 2) as u16, val: integer(rng) }),
                4 | 5 => Value::Leaf(Constraint::ConstPrim { val: rng.below(2) as u16 }),
                _ => Value::Absent,
            };
        }
        let fields = |rng: &mut Rng| -> Vec<Value> {
            let count = *rng.pick(&[0, 1, 1, 1, 2, 2, 2, 3]);
            let same = rng.chance(30);
            let first = Value::any(rng, depth - 1);
            (0..count).map(|_| if same { first.clone() } else { Value::any(rng, depth - 1) }).collect()
        };
        match rng.below(5) {
            0 | 1 => Value::Variant {
                ty: rng.from(1, 2) as u16,
                variant: rng.below(2) as u16,
                fields: fields(rng),
            },
            2 | 3 => Value::Struct { ty: rng.from(1, 2) as u16, fields: fields(rng) },
            _ => Value::Present(Box::new(Value::any(rng, depth - 1))),
        }
    }

    /// The one constraint that the value meets.
    fn shape(&self) -> Option<Constraint> {
        Some(match self {
            Value::Leaf(c) => c.clone(),
            Value::Variant { ty, variant, fields } => {
                Constraint::Variant { ty: *ty, variant: *variant, fields: fields.len() as u8 }
            }
            Value::Struct { ty, fields } => Constraint::Struct { ty: *ty, fields: fields.len() as u8 },
            Value::Absent => return None,
            Value::Present(_) => Constraint::Some,
        })
    }
}

fn integer(rng: &mut Rng) -> u128 {
    *rng.pick(&[0, 1, 5, 5, u128::MAX, 1 << 127, 1 << 64, u64::MAX as u128])
}

/// An input: values for free sites, chosen when first asked for.
#[derive(Clone)]
struct Input {
    pool: Vec<Value>,
    free: BTreeMap<usize, Value>,
}

impl Input {
    fn any(rng: &mut Rng) -> Input {
        let count = rng.from(1, 4);
        let pool = (0..count).map(|_| Value::any(rng, 3)).collect();
        Input { pool, free: BTreeMap::new() }
    }

    fn value(&mut self, rng: &mut Rng, sites: &Table, site: usize) -> Option<Value> {
        match sites.0[site] {
            Site::MatchVariant { source, variant, field } => match self.value(rng, sites, source)? {
                Value::Variant { variant: v, fields, .. } if v == variant => {
                    fields.get(field as usize).cloned()
                }
                _ => None,
            },
            Site::ExtractStruct { source, field } => match self.value(rng, sites, source)? {
                Value::Struct { fields, .. } => fields.get(field as usize).cloned(),
                _ => None,
            },
            Site::MatchSome { source } => match self.value(rng, sites, source)? {
                Value::Present(inner) => Some(*inner),
                _ => None,
            },
            _ => {
                if !self.free.contains_key(&site) {
                    let value = rng.pick(&self.pool).clone();
                    self.free.insert(site, value);
                }
                self.free.get(&site).cloned()
            }
        }
    }
}

/// A rule on its way.
struct Draft {
    sites: Table,
    shapes: BTreeMap<usize, Constraint>,
    items: Vec<Item>,
}

impl Draft {
    /// Free sites, and children whose source is constrained so as to have them.
    fn rooted(&self) -> Vec<usize> {
        (0..self.sites.0.len())
            .filter(|&n| {
                let site = &self.sites.0[n];
                match site.parent() {
                    None => true,
                    Some(p) => self.shapes.get(&p).is_some_and(|c| c.children(p).contains(site)),
                }
            })
            .collect()
    }

    fn put(&mut self, item: Item) {
        if let Item::Is(site, c) = &item {
            if *site < self.sites.0.len() && c.fields() <= 8 && !self.shapes.contains_key(site) {
                self.shapes.insert(*site, c.clone());
                let _ = self.sites.add_children(*site, c, 0);
            }
        }
        self.items.push(item);
    }

    fn fitting(&mut self, rng: &mut Rng, input: &mut Input) {
        let rooted = self.rooted();
        if rooted.is_empty() {
            return;
        }
        let mut a = *rng.pick(&rooted);
        if self.shapes.contains_key(&a) && rng.chance(70) {
            a = *rng.pick(&rooted);
        }
        let Some(value) = input.value(rng, &self.sites, a) else { return };
        if !self.shapes.contains_key(&a) && rng.chance(60) || rng.chance(4) {
            if let Some(shape) = value.shape() {
                self.put(Item::Is(a, shape));
                return;
            }
        }
        let mut equal = vec![];
        for &b in &rooted {
            if (b != a || rng.chance(3)) && input.value(rng, &self.sites, b).as_ref() == Some(&value) {
                equal.push(b);
            }
        }
        if !equal.is_empty() {
            let b = *rng.pick(&equal);
            self.put(Item::Equal(a, b));
        }
    }

    fn unfitting(&mut self, rng: &mut Rng) {
        let known = self.sites.0.len();
        if known == 0 {
            return;
        }
        let rooted = self.rooted();
        let any = rng.below(known);
        let good = if rooted.is_empty() { any } else { *rng.pick(&rooted) };
        let shape = Value::any(rng, 2).shape().unwrap_or(Constraint::Some);
        let item = match rng.below(40) {
            0 => Item::Equal(good, known + rng.below(3)),
            1 => Item::Is(known + rng.below(2), shape),
            2 => Item::Is(any, shape),
            3 => Item::Equal(any, good),
            4 => Item::Is(good, Constraint::Struct { ty: 1, fields: rng.from(8, 10) as u8 }),
            5..=18 => Item::Is(good, shape),
            _ if rooted.is_empty() => Item::Equal(good, any),
            _ => Item::Equal(good, *rng.pick(&rooted)),
        };
        self.put(item);
    }
}

impl Draft {
    /// Two sites made equal under one shape, and constraints beneath them that may differ: what only shows once the
    /// like-numbered children are joined.
    fn clash(&mut self, rng: &mut Rng) {
        let open: Vec<usize> =
            self.rooted().into_iter().filter(|site| !self.shapes.contains_key(site)).collect();
        if open.len() < 2 {
            return;
        }
        let (mut a, mut b) = (*rng.pick(&open), *rng.pick(&open));
        self.put(Item::Equal(a, b));
        for _ in 0..rng.from(1, 3) {
            let shape = match rng.below(3) {
                0 => Constraint::Some,
                1 => Constraint::Struct { ty: 1, fields: rng.from(1, 2) as u8 },
                _ => Constraint::Variant { ty: 1, variant: 1, fields: rng.from(1, 2) as u8 },
            };
            if self.shapes.contains_key(&a) || self.shapes.contains_key(&b) {
                return;
            }
            self.put(Item::Is(a, shape.clone()));
            self.put(Item::Is(b, shape.clone()));
            let field = rng.below(shape.children(0).len());
            (a, b) = (self.sites.children(a, &shape)[field], self.sites.children(b, &shape)[field]);
        }
        let leaf = |rng: &mut Rng| Value::any(rng, 0).shape().unwrap_or(Constraint::Some);
        let (one, other) = (leaf(rng), leaf(rng));
        self.put(Item::Is(a, one));
        self.put(Item::Is(b, other));
    }
}

fn items(rng: &mut Rng, set: &Set, input: &mut Input, loaded: &[Vec<Item>]) -> Vec<Item> {
    let mut draft = Draft { sites: set.sites.clone(), shapes: BTreeMap::new(), items: vec![] };
    if !loaded.is_empty() && rng.chance(35) {
        // a rule like an earlier one: some of its items, perhaps in another order, perhaps more
        let mut items = rng.pick(loaded).clone();
        items.truncate(rng.from(items.len() / 2, items.len()));
        if rng.chance(25) {
            rng.shuffle(&mut items);
        }
        items.into_iter().for_each(|item| draft.put(item));
        for _ in 0..rng.below(3) {
            draft.fitting(rng, input);
        }
    } else {
        for _ in 0..*rng.pick(&[0, 1, 2, 3, 4, 5, 6, 7, 8, 10, 14]) {
            draft.fitting(rng, input);
        }
    }
    if rng.chance(30) {
        for _ in 0..rng.from(1, 2) {
            draft.unfitting(rng);
        }
        let more = rng.below(3);
        for _ in 0..more {
            draft.fitting(rng, input);
        }
    }
    if rng.chance(12) {
        draft.clash(rng);
    }
    if rng.chance(5) && !draft.items.is_empty() {
        let again = rng.pick(&draft.items).clone();
        draft.items.push(again);
    }
    draft.items.truncate(32);
    draft.items
}

fn site(rng: &mut Rng, known: usize, terms: &[usize]) -> Site {
    let source = rng.below(known);
    let list = |rng: &mut Rng| -> Vec<usize> {
        let count = rng.below(4);
        (0..count).map(|_| rng.below(known)).collect()
    };
    let ty = rng.from(1, 2) as u16;
    let field = rng.below(3) as u8;
    let variant = rng.below(2) as u16;
    match rng.below(14) {
        0 => Site::ConstBool { ty, val: rng.below(2) as u8 },
        1 => Site::ConstInt { ty, val: integer(rng) },
        2 => Site::ConstPrim { val: rng.below(3) as u16 },
        3 => Site::Argument { index: rng.below(256) as u8 },
        4 => Site::Extractor { term: *rng.pick(terms) as u16, parameter: source },
        5 => Site::Constructor {
            term: *rng.pick(terms) as u16,
            instance: rng.below(2) as u32,
            parameters: list(rng),
        },
        6 => Site::Iterator { source },
        7 => Site::MakeVariant { ty, variant, fields: list(rng) },
        8 => Site::MatchVariant { source, variant, field },
        9 => Site::MakeStruct { ty, fields: list(rng) },
        10 => Site::ExtractStruct { source, field },
        11 => Site::MakeSome { inner: source },
        12 => Site::MatchSome { source },
        _ => Site::MatchTuple { source, field },
    }
}

fn one_set(rng: &mut Rng, lines: &mut Lines, term: usize, terms: &[usize]) {
    let flags = *rng.pick(&[0, 0, 0, 0, 1, 2, 2, 3]);
    lines.begin(term, flags);
    let mut set = Set { term: term as u16, flags, ..Set::default() };
    for index in 0..rng.from(1, 4) {
        set.sites.0.push(Site::Argument { index: index as u8 });
    }
    for _ in 0..*rng.pick(&[0, 0, 1, 2, 3, 5, 8]) {
        let site = site(rng, set.sites.0.len(), terms);
        if set.sites.number(&site).is_none() {
            set.sites.0.push(site);
        }
    }
    set.sites.0.iter().for_each(|site| lines.site(site));

    let inputs: Vec<Input> = (0..rng.from(1, 2)).map(|_| Input::any(rng)).collect();
    let mut loaded: Vec<Vec<Item>> = vec![];
    let mut places: Vec<u32> = (1..40).collect();
    rng.shuffle(&mut places);
    for _ in 0..*rng.pick(&[0, 1, 2, 3, 4, 5, 6, 8]) {
        let mut input = rng.pick(&inputs).clone();
        let mut place = places.pop().unwrap();
        if rng.chance(3) && !set.kept.is_empty() {
            place = rng.pick(&set.kept).place;
        }
        if rng.chance(3) {
            place = u32::MAX - place;
        }
        let priority = *rng.pick(&[0, 0, 0, 0, 1, 1, -1, -1, 2, i64::MAX, i64::MIN]);
        let rule = Rule { place, priority, items: items(rng, &set, &mut input, &loaded) };
        if set.load(&rule).result.is_ok() {
            loaded.push(rule.items.clone());
        }
        lines.rule(&rule);
    }
    lines.end();
}

pub fn sheet(rng: &mut Rng) -> String {
    let mut terms: Vec<usize> = vec![0, 1, 2, 3, 4, 255];
    rng.shuffle(&mut terms);
    let sets = *rng.pick(&[1, 1, 1, 2, 2, 3]);
    let mut lines = Lines::default();
    for &term in &terms[..sets] {
        one_set(rng, &mut lines, term, &terms[..sets + 1]);
    }
    if rng.chance(4) {
        fault(rng, &mut lines);
    }
    lines.text()
}

/// One line that is not as it should be.
fn fault(rng: &mut Rng, lines: &mut Lines) {
    let at = rng.below(lines.0.len());
    match rng.below(6) {
        0 => {
            lines.0.remove(at);
        }
        1 => {
            let line = lines.0[at].clone();
            lines.0.insert(at, line);
        }
        2 => lines.0.truncate(at),
        3 => {
            let line = &mut lines.0[at];
            let digit = rng.below(line.len());
            let other: &str = ["0", "1", "F", "9", "a", " ", "\r"][rng.below(7)];
            line.replace_range(digit..digit + 1, other);
        }
        4 => {
            lines.0[at].pop();
        }
        _ => lines.0[at] += ["0", "00", "FF", "0000"][rng.below(4)],
    }
}
