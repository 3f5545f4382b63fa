//! Loading whole sets: sites added, rules loaded and normalised, the report.

use crate::lintelbox::*;
use crate::sets::{argument, report_text};
use isle::lexer::Pos;
use isle::overlap::inside::report as rust_report;
use isle::sema::{self, TermEnv, TermId, TypeId};
use isle::trie_again::inside::Builder;
use isle::trie_again::{Binding, Constraint, RuleSet};

/// A site as it is written: an argument, or a field of an earlier site as a structure.
#[derive(Clone, Copy)]
pub enum Site {
    Argument(u8),
    Field(usize, u8),
}

#[derive(Clone, Copy)]
pub enum Shape {
    Integer(i128),
    Structure(u16, u8),
}

#[derive(Clone, Copy)]
pub enum Item {
    Is(usize, Shape),
    Equal(usize, usize),
}

pub struct Written {
    pub sites: Vec<Site>,
    pub rules: Vec<(i64, Vec<Item>)>,
}

/// A set as the calls want it: bodies, and four words an item.
pub struct Handed {
    bodies: Vec<Vec<u8>>,
    rules: Vec<(i64, Vec<u64>)>,
}

/// Lent memory, and what stands in it.
pub struct Ours {
    sites: Vec<u8>,
    pub words: Vec<u64>,
    pub count: u16,
    pub kept: u32,
    room: Vec<u8>,
}

pub fn handed(w: &Written) -> Handed {
    let body = |s: &Site| match *s {
        Site::Argument(n) => vec![3, n],
        Site::Field(source, field) => vec![10, (source >> 8) as u8, source as u8, field],
    };
    let item = |i: &Item| match *i {
        Item::Is(site, Shape::Integer(n)) => [site as u64, 3 * 65536 + 3, (n >> 64) as u64, n as u64],
        Item::Is(site, Shape::Structure(ty, fields)) => [site as u64, 65536 + ty as u64, fields as u64, 0],
        Item::Equal(one, other) => [65536 + one as u64, other as u64, 0, 0],
    };
    let rules = w.rules.iter().map(|(priority, items)| (*priority, items.iter().flat_map(item).collect())).collect();
    Handed { bodies: w.sites.iter().map(body).collect(), rules }
}

impl Ours {
    pub fn new() -> Ours {
        Ours { sites: vec![0; SITES * SLOT], words: vec![0; RULES * STRIDE], count: 0, kept: 0, room: vec![0; REPORT_ROOM] }
    }

    /// The whole set, from empty; which rules were kept. Gives the length of the report.
    pub fn whole(&mut self, set: &Handed, kept: &mut Vec<bool>) -> usize {
        let mut a = [0; ANSWER];
        (self.count, self.kept) = (0, 0);
        for body in &set.bodies {
            add_site(&mut self.sites, self.count, body, 0, &mut a);
            self.count += a[1] as u16;
        }
        for (i, (priority, items)) in set.rules.iter().enumerate() {
            let place = 10 * (i as u32 + 1);
            let number = load(&mut self.sites, self.count, &mut self.words, self.kept, place, *priority, items, (items.len() / 4) as u8, &mut a);
            kept.push(number == 0);
            if number == 0 {
                self.count = a[0] as u16;
                self.kept += 1;
            }
        }
        assert_eq!(report(&self.words, self.kept, 0, &mut self.room, &mut a), 0);
        a[0] as usize
    }

    pub fn text(&self, length: usize) -> &str {
        std::str::from_utf8(&self.room[..length]).unwrap()
    }
}

/// The same by the Rust.
pub fn rust(w: &Written, env: &TermEnv, kept: &mut Vec<bool>) -> (Vec<(TermId, RuleSet)>, usize) {
    let mut builder = Builder::default();
    let mut ids = vec![];
    for site in &w.sites {
        ids.push(match *site {
            Site::Argument(n) => builder.site(argument(n)),
            Site::Field(source, field) => {
                let field = usize::from(field).try_into().unwrap();
                builder.site(Binding::ExtractStruct { source: ids[source], field })
            }
        });
    }
    for (i, (prio, items)) in w.rules.iter().enumerate() {
        for item in items {
            match *item {
                Item::Is(site, Shape::Integer(val)) => builder.constrain(ids[site], Constraint::ConstInt { val, ty: TypeId(3) }),
                Item::Is(site, Shape::Structure(ty, fields)) => {
                    let fields = usize::from(fields).try_into().unwrap();
                    builder.constrain(ids[site], Constraint::Struct { ty: TypeId(ty as usize), fields })
                }
                Item::Equal(one, other) => builder.equal(ids[one], ids[other]),
            }
        }
        let pos = Pos { file: 0, offset: 10 * (i + 1) };
        kept.push(builder.end(&sema::Rule { pos, prio: *prio, ..Default::default() }, env));
    }
    let sets = vec![(TermId(0), builder.into_rules())];
    let errors = rust_report(&sets, env).len();
    (sets, errors)
}

/// Both say the same of a set.
pub fn agree(w: &Written, env: &TermEnv) {
    let (mut ours, mut kept, mut theirs) = (Ours::new(), vec![], vec![]);
    let length = ours.whole(&handed(w), &mut kept);
    let (sets, _) = rust(w, env, &mut theirs);
    assert_eq!(kept, theirs, "the same rules are kept");
    let mut a = [0; ANSWER];
    for (i, rule) in sets[0].1.rules.iter().enumerate() {
        assert_eq!(total_constraints(&ours.words, i as u32, &mut a), 0);
        assert_eq!(a[0] as usize, rule.total_constraints());
    }
    let sorted = |text: &str| {
        let mut lines: Vec<String> = text.lines().map(str::to_string).collect();
        lines.sort();
        lines
    };
    assert_eq!(sorted(ours.text(length)), sorted(&report_text(&rust_report(&sets, env))));
}

// ---- the sets

/// A few arguments, a field of the first: rules of three items, one an equality.
pub fn small(i: usize) -> Written {
    let sites = vec![Site::Argument(0), Site::Argument(1), Site::Argument(2), Site::Field(0, 0)];
    let rules = (0..4 + i % 5)
        .map(|k| {
            let n = (i + k) as i128;
            let items = match k % 3 {
                0 => vec![Item::Is(0, Shape::Structure(1, 1)), Item::Is(3, Shape::Integer(n)), Item::Is(1, Shape::Integer(n % 2))],
                1 => vec![Item::Equal(0, 1), Item::Is(0, Shape::Structure(1, 1)), Item::Is(2, Shape::Integer(n % 2))],
                _ => vec![Item::Equal(1, 2), Item::Is(1, Shape::Integer(n % 2)), Item::Is(0, Shape::Integer(n))],
            };
            ((k % 2) as i64, items)
        })
        .collect();
    Written { sites, rules }
}

/// A chain of fields under one argument, all structures, and another argument equal to it: each round goes one field down.
pub fn deep(depth: usize, rules: usize) -> Written {
    let mut sites = vec![Site::Argument(0), Site::Argument(1)];
    for k in 0..depth {
        sites.push(Site::Field(if k == 0 { 0 } else { k + 1 }, 0));
    }
    let mut items = vec![Item::Equal(0, 1), Item::Is(0, Shape::Structure(9, 1))];
    items.extend((0..depth - 1).map(|k| Item::Is(k + 2, Shape::Structure(k as u16, 1))));
    Written { sites, rules: (0..rules).map(|i| (i as i64, items.clone())).collect() }
}

/// Equal arguments, one of them a structure: one class becomes one for each field.
pub fn wide(members: usize, fields: u8, rules: usize) -> Written {
    let sites = (0..members).map(|k| Site::Argument(k as u8)).collect();
    let mut items: Vec<Item> = (1..members).map(|k| Item::Equal(k - 1, k)).collect();
    items.push(Item::Is(members / 2, Shape::Structure(7, fields)));
    Written { sites, rules: (0..rules).map(|i| (i as i64, items.clone())).collect() }
}

/// Arguments that must be integers, the last another in each rule.
pub fn flat(items: usize, rules: usize) -> Written {
    let sites = (0..items).map(|k| Site::Argument(k as u8)).collect();
    let value = |i: usize, k: usize| if k + 1 == items { i } else { k };
    let rule = |i: usize| (0..items).map(|k| Item::Is(k, Shape::Integer(value(i, k) as i128))).collect();
    Written { sites, rules: (0..rules).map(|i| (0, rule(i))).collect() }
}

/// As many sites as may be, site s with fields 8s + 1 to 8s + 8.
fn full_table() -> Vec<Site> {
    let mut sites = vec![Site::Argument(0)];
    while sites.len() + 8 <= SITES {
        let source = (sites.len() - 1) / 8;
        sites.extend((0..8).map(|f| Site::Field(source, f)));
    }
    sites
}

/// In a full table, rules that make two fields equal, one of them a structure: one round, and sixteen equal sites.
pub fn full_equal(rules: usize) -> Written {
    let rule = |i: usize| {
        let one = 1 + i % 4;
        vec![Item::Is(0, Shape::Structure(0, 8)), Item::Equal(one, one + 4), Item::Is(one, Shape::Structure(i as u16, 8))]
    };
    Written { sites: full_table(), rules: (0..rules).map(|i| (i as i64, rule(i))).collect() }
}

/// In a full table, rules that go down three structures, whose children are all there, to an integer.
pub fn full(rules: usize) -> Written {
    let rules = (0..rules)
        .map(|i| {
            let one = 1 + i % 8;
            let two = 8 * one + 1 + i / 8 % 8;
            let mut items: Vec<Item> = [0, one, two].iter().map(|&s| Item::Is(s, Shape::Structure(s as u16, 8))).collect();
            items.push(Item::Is(8 * two + 1, Shape::Integer(i as i128)));
            (0, items)
        })
        .collect();
    Written { sites: full_table(), rules }
}
