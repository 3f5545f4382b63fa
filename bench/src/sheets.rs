//! Whole sheets: the bytes of a sheet in, its findings out. The Rust has no sheets; here it gets a reader of its own, as plain as can be, which
//! hands sites and rules to its builder, and then its report and its cyclic terms.

use crate::lintelbox::*;
use crate::loads::{Item, Shape, Site, Written};
use crate::sets::{argument, report_text};
use isle::lexer::Pos;
use isle::overlap::inside::report as rust_report;
use isle::recursion::inside::cyclic as rust_cyclic;
use isle::sema::{self, TermEnv, TermId, TypeId};
use isle::trie_again::inside::Builder;
use isle::trie_again::{Binding, BindingId, Constraint, RuleSet};

// ---- the sheet of some sets

fn line(out: &mut Vec<u8>, bytes: &[u8]) {
    for b in bytes {
        out.extend(format!("{b:02X}").bytes());
    }
    out.push(b'\n');
}

fn site_bytes(s: &Site) -> Vec<u8> {
    match *s {
        Site::Argument(n) => vec![2, 3, n],
        Site::Field(source, field) => vec![2, 10, (source >> 8) as u8, source as u8, field],
    }
}

fn item_bytes(i: &Item) -> Vec<u8> {
    let two = |n: usize| (n as u16).to_be_bytes();
    match *i {
        Item::Is(site, Shape::Integer(n)) => [&[4], &two(site)[..], &[3, 0, 3], &n.to_be_bytes()].concat(),
        Item::Is(site, Shape::Structure(ty, fields)) => [&[4], &two(site)[..], &[1], &ty.to_be_bytes(), &[fields]].concat(),
        Item::Equal(one, other) => [&[5], &two(one)[..], &two(other)].concat(),
    }
}

/// Set k is of term k. No place is used twice in the sheet: the Rust takes rules of one place, even of two sets, for one.
pub fn text(sets: &[Written]) -> Vec<u8> {
    let mut out = vec![];
    for (term, set) in sets.iter().enumerate() {
        line(&mut out, &[1, 0, term as u8, 0]);
        set.sites.iter().for_each(|s| line(&mut out, &site_bytes(s)));
        for (i, (priority, items)) in set.rules.iter().enumerate() {
            let place = 1000 * term as u32 + 10 * (i as u32 + 1);
            line(&mut out, &[&[3], &place.to_be_bytes()[..], &priority.to_be_bytes(), &[items.len() as u8]].concat());
            items.iter().for_each(|i| line(&mut out, &item_bytes(i)));
        }
        line(&mut out, &[6]);
    }
    out
}

// ---- ours

pub struct Ours {
    sheet: Sheet,
    room: Vec<u8>,
}

impl Ours {
    pub fn new() -> Ours {
        Ours { sheet: Sheet::new(), room: vec![0; 64 * STEP_ROOM] }
    }

    /// The findings of a sheet.
    pub fn check(&mut self, sheet: &[u8]) -> &[u8] {
        let mut a = [0; ANSWER];
        assert_eq!(self.sheet.check(sheet, SITES_ROOM, &mut self.room, &mut a), 0);
        &self.room[..a[0] as usize]
    }
}

// ---- the Rust's

#[derive(Default)]
struct Open {
    builder: Builder,
    ids: Vec<BindingId>,
    rule: sema::Rule,
    left: u8,
    kept: usize,
}

fn digit(d: u8) -> u8 {
    match d {
        b'0'..=b'9' => d - b'0',
        b'A'..=b'F' => d - b'A' + 10,
        _ => panic!("no digit"),
    }
}

fn two(b: &[u8]) -> usize {
    u16::from_be_bytes([b[0], b[1]]) as usize
}

impl Open {
    fn site(&mut self, b: &[u8]) {
        let id = match b[0] {
            3 => self.builder.site(argument(b[1])),
            10 => {
                let field = usize::from(b[3]).try_into().unwrap();
                self.builder.site(Binding::ExtractStruct { source: self.ids[two(&b[1..])], field })
            }
            kind => panic!("kind {kind}"),
        };
        self.ids.push(id);
    }

    fn item(&mut self, b: &[u8], env: &TermEnv) {
        if b[0] == 5 {
            self.builder.equal(self.ids[two(&b[1..])], self.ids[two(&b[3..])]);
        } else {
            let ty = TypeId(two(&b[4..]));
            let constraint = match b[3] {
                1 => Constraint::Struct { ty, fields: usize::from(b[6]).try_into().unwrap() },
                3 => Constraint::ConstInt { ty, val: i128::from_be_bytes(b[6..22].try_into().unwrap()) },
                kind => panic!("kind {kind}"),
            };
            self.builder.constrain(self.ids[two(&b[1..])], constraint);
        }
        self.left -= 1;
        if self.left == 0 {
            self.kept += self.builder.end(&self.rule, env) as usize;
        }
    }

    fn rule(&mut self, b: &[u8]) {
        let offset = u32::from_be_bytes(b[1..5].try_into().unwrap()) as usize;
        let prio = i64::from_be_bytes(b[5..13].try_into().unwrap());
        self.rule = sema::Rule { pos: Pos { file: 0, offset }, prio, ..Default::default() };
        self.left = b[13];
    }
}

pub struct Told {
    pub errors: Vec<isle::error::Error>,
    pub cyclic: usize,
    pub kept: usize,
}

pub fn rust(sheet: &[u8], env: &TermEnv) -> Told {
    let mut sets: Vec<(TermId, RuleSet)> = vec![];
    let (mut open, mut term, mut kept) = (Open::default(), TermId(0), 0);
    let mut bytes: Vec<u8> = vec![];
    for text in sheet.split(|&b| b == b'\n').filter(|text| !text.is_empty()) {
        bytes.clear();
        bytes.extend(text.chunks_exact(2).map(|p| digit(p[0]) * 16 + digit(p[1])));
        match bytes[0] {
            1 => (open, term) = (Open::default(), TermId(two(&bytes[1..]))),
            2 => open.site(&bytes[1..]),
            3 => open.rule(&bytes),
            4 | 5 => open.item(&bytes, env),
            6 => {
                kept += open.kept;
                sets.push((term, std::mem::take(&mut open).builder.into_rules()));
            }
            kind => panic!("frame {kind}"),
        }
    }
    let cyclic = rust_cyclic(&sets).len();
    Told { errors: rust_report(&sets, env), cyclic, kept }
}

/// Both find the same in a sheet.
pub fn agree(sheet: &[u8], env: &TermEnv) {
    let mut ours = Ours::new();
    let found = String::from_utf8(ours.check(sheet).to_vec()).unwrap();
    let told = rust(sheet, env);
    let of = |from: &[&str]| found.lines().filter(|l| from.contains(&&l[..2])).map(str::to_string).collect::<Vec<_>>();
    let mut reports = of(&["12", "13"]);
    reports.sort();
    let text = report_text(&told.errors);
    let mut theirs: Vec<&str> = text.lines().collect();
    theirs.sort();
    assert_eq!(reports, theirs);
    assert_eq!(of(&["14"]).len(), told.cyclic);
    let rules = sheet.split(|&b| b == b'\n').filter(|l| l.starts_with(b"03")).count();
    assert_eq!(rules - of(&["11"]).len(), told.kept);
    assert_eq!(of(&["15"]).len(), 1, "read to its end");
}
