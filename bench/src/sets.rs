//! Sets of rules on both sides: the Rust's, made by its own builder, and the same rules as words.

use crate::lintelbox::STRIDE;
use isle::disjointsets::inside::items;
use isle::lexer::Pos;
use isle::sema::{self, Sym, Term, TermEnv, TermFlags, TermId, TermKind, TypeId};
use isle::trie_again::inside::{constraints, Builder};
use isle::trie_again::{Binding, BindingId, Constraint, Rule, RuleSet};

pub struct Set {
    pub rust: Vec<(TermId, RuleSet)>,
    pub words: Vec<u64>,
    pub count: u32,
}

/// A rule as it is asked for: its priority, and of each constrained argument the integer it must be.
pub struct Asked {
    pub priority: i64,
    pub values: Vec<(u8, i128)>,
}

pub fn env() -> TermEnv {
    let mut env = TermEnv::default();
    for _ in 0..256 {
        let flags = TermFlags { multi: false, rec: false };
        env.terms.push(Term { decl_pos: Pos::default(), kind: TermKind::Decl { flags } });
    }
    env
}

pub fn argument(n: u8) -> Binding {
    Binding::Argument { index: usize::from(n).try_into().unwrap() }
}

pub fn set(rules: &[Asked]) -> Set {
    let env = env();
    let mut builder = Builder::default();
    for (i, rule) in rules.iter().enumerate() {
        for &(site, val) in &rule.values {
            let id = builder.site(argument(site));
            builder.constrain(id, Constraint::ConstInt { val, ty: TypeId(3) });
        }
        let pos = Pos { file: 0, offset: 10 * (i + 1) };
        assert!(builder.end(&sema::Rule { pos, prio: rule.priority, ..Default::default() }, &env));
    }
    let rules = builder.into_rules();
    let words = rules.rules.iter().flat_map(kept).collect();
    let count = rules.rules.len() as u32;
    Set { rust: vec![(TermId(0), rules)], words, count }
}

/// A kept rule as words: include/lintelmoth.h has the layout.
pub fn kept(rule: &Rule) -> Vec<u64> {
    let mut sites = constraints(rule);
    sites.sort_by_key(|(site, _)| *site);
    let mut equal: Vec<BindingId> = items(&rule.equals);
    equal.sort();
    let mut words = vec![rule.pos.offset as u64, rule.prio as u64 ^ 1 << 63, sites.len() as u64, equal.len() as u64];
    for (site, c) in &sites {
        words.push(site.index() as u64);
        words.extend(packed(c));
    }
    words.resize(132, 0);
    for site in &equal {
        let low = equal.iter().find(|low| rule.equals.in_same_set(**low, *site)).unwrap();
        words.extend([site.index() as u64, low.index() as u64]);
    }
    words.resize(STRIDE, 0);
    words
}

fn packed(c: &Constraint) -> [u64; 3] {
    let head = |kind: usize, ty: usize| (kind * 65536 + ty) as u64;
    match c {
        Constraint::Variant { ty, variant, fields } => [head(0, ty.0), variant.0 as u64, fields.index() as u64],
        Constraint::Struct { ty, fields } => [head(1, ty.0), fields.index() as u64, 0],
        Constraint::ConstBool { ty, val } => [head(2, ty.0), *val as u64, 0],
        Constraint::ConstInt { ty, val } => [head(3, ty.0), (*val >> 64) as u64, *val as u64],
        Constraint::ConstPrim { val: Sym(name) } => [head(4, *name), 0, 0],
        Constraint::Some => [head(5, 0), 0, 0],
    }
}

/// The report's lines as the Rust makes them, written as findings.
pub fn report_text(errors: &[isle::error::Error]) -> String {
    use isle::error::Error;
    let place = |p: Pos| format!("{:08X}", p.offset);
    let mut out = String::new();
    for error in errors {
        match error {
            Error::OverlapError { rules, .. } => {
                let mut others: Vec<Pos> = rules[1..].iter().map(|s| s.from).collect();
                others.sort();
                let list: String = others.into_iter().map(place).collect();
                out += &format!("12{:04X}{}{list}\n", rules.len(), place(rules[0].from));
            }
            Error::ShadowedError { shadowed, mask } => {
                let list: String = shadowed.iter().map(|s| place(s.from)).collect();
                out += &format!("13{}{:04X}{list}\n", place(mask.from), shadowed.len());
            }
            other => panic!("not of a report: {other:?}"),
        }
    }
    out
}

/// Sets that are terms of a graph: the set of term a has an Extractor site for each edge from a.
pub fn graph(terms: usize, edges: &[(u16, u16)]) -> Vec<(TermId, RuleSet)> {
    (0..terms)
        .map(|a| {
            let mut builder = Builder::default();
            let parameter = builder.site(argument(0));
            for (_, to) in edges.iter().filter(|e| e.0 as usize == a) {
                builder.site(Binding::Extractor { term: TermId(*to as usize), parameter });
            }
            (TermId(a), builder.into_rules())
        })
        .collect()
}
